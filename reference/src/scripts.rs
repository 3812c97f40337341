//! Scripts on which a `tear` program is compared with this one.

mod bad_lines;
mod draft;
mod fixed;
mod kind;

use crate::damage::Damage;
use crate::generate::{self, Costs, Shape};
use crate::random::Random;
use crate::wire;
use draft::any;
use fixed::{fixed, with_bad_lines};

/// How many lists get random damage.
const DAMAGED: usize = 20;

/// A list of links in bytes, and a script to play its network by.
pub struct Script {
    pub name: String,
    pub links: Vec<u8>,
    pub text: Vec<u8>,
}

/// All scripts of one comparison, `count` random ones among them.
pub fn all(count: usize, random: &mut Random) -> Vec<Script> {
    let mut scripts = fixed();
    scripts.extend(with_bad_lines());
    scripts.extend((0..DAMAGED).map(|_| on_damaged_list(random)));
    let kinds = Shape::ALL.iter().flat_map(|shape| Costs::ALL.map(|costs| (*shape, costs)));
    let kinds = kinds.filter(|(shape, _)| *shape != Shape::Largest);
    scripts.extend(kinds.cycle().take(count).map(|(shape, costs)| any(shape, costs, random)));
    scripts
}

fn on_damaged_list(random: &mut Random) -> Script {
    let mut links = wire::emit(&generate::two_links(random));
    let damage = random.pick(&Damage::ALL);
    damage.apply(&mut links, random);
    Script { name: format!("a list changed by {damage:?}"), links, text: "words\nstate\n".into() }
}
