//! Inputs on which a `lay` program is compared with this one.

use crate::damage::{byte_changes, cuts, Damage};
use crate::generate::{self, Costs, Shape};
use crate::lay::Form;
use crate::node::MAX_NODES;
use crate::random::Random;
use crate::topology::Topology;
use crate::wire;

/// How many lists get random damage.
const DAMAGED: usize = 500;

/// Of how many of them the summary is compared too.
const DAMAGED_SUMMED_UP: usize = 50;

/// Bytes to be read as a list of links.
pub struct Input {
    pub name: String,
    pub bytes: Vec<u8>,
    /// What is compared.
    pub forms: &'static [Form],
}

impl Input {
    fn new(name: impl Into<String>, bytes: Vec<u8>) -> Input {
        Input { name: name.into(), bytes, forms: &[Form::Plan] }
    }

    fn summed_up(self) -> Input {
        Input { forms: &[Form::Plan, Form::Summary], ..self }
    }
}

/// All inputs of one comparison, `networks` random lawful ones among them.
pub fn all(networks: usize, random: &mut Random) -> Vec<Input> {
    let mut inputs = extremes();
    inputs.extend(lawful(networks, random));
    inputs.extend(longer_lists(random));
    inputs.extend(link_too_many(random));
    inputs.extend((0..DAMAGED_SUMMED_UP).map(|_| damaged(random).summed_up()));
    inputs.extend((DAMAGED_SUMMED_UP..DAMAGED).map(|_| damaged(random)));
    inputs.extend(cut_lists(random));
    inputs.extend(changed_lists(random));
    inputs
}

/// One link more than there can be, which is refused for itself, and bytes after it.
fn link_too_many(random: &mut Random) -> Vec<Input> {
    let full = wire::emit(&generate::full(MAX_NODES));
    let lengths = [0, 1, 3, 4, 5, 8, 65_536];
    let longer = |length| {
        let mut bytes = full.clone();
        let count = u16::from_be_bytes([bytes[2], bytes[3]]) + 1;
        bytes[2..4].copy_from_slice(&count.to_be_bytes());
        bytes.extend((0..length).map(|_| random.byte()));
        Input::new(format!("a link too many, of which {length} bytes are there"), bytes)
    };
    lengths.map(longer).into()
}

fn extremes() -> Vec<Input> {
    let networks = [
        ("one node", unlinked(1)),
        ("two nodes without a link", unlinked(2)),
        ("64 nodes without a link", unlinked(MAX_NODES)),
        ("the greatest distance", generate::longest_line()),
        ("all links between 64 nodes", generate::full(MAX_NODES)),
    ];
    networks.map(|(name, network)| Input::new(name, wire::emit(&network)).summed_up()).into()
}

fn unlinked(nodes: u8) -> Topology {
    Topology::new(nodes).expect("1 to 64 nodes")
}

/// Each shape with each range of costs, over and over.
fn lawful(networks: usize, random: &mut Random) -> Vec<Input> {
    let kinds = Shape::ALL.iter().flat_map(|shape| Costs::ALL.map(|costs| (*shape, costs)));
    let network = |(shape, costs)| {
        let list = wire::emit(&generate::network(shape, costs, random));
        Input::new(format!("{shape:?} with costs {costs:?}"), list).summed_up()
    };
    kinds.cycle().take(networks).map(network).collect()
}

fn cut_lists(random: &mut Random) -> Vec<Input> {
    let ring = generate::network(Shape::Ring, Costs::Any, random);
    let lists = [generate::two_links(random), ring].map(|network| wire::emit(&network));
    lists.iter().flat_map(|list| cuts(list)).map(|cut| Input::new("cut", cut)).collect()
}

fn changed_lists(random: &mut Random) -> Vec<Input> {
    let nodes = random.between(1..=MAX_NODES.into()) as u8;
    let lists = [unlinked(nodes), generate::two_links(random)].map(|network| wire::emit(&network));
    let changed = |list| Input::new("one byte changed", list);
    lists.iter().flat_map(|list| byte_changes(list)).map(changed).collect()
}

/// Lists with bytes after their end: few, and more than a buffer may hold.
fn longer_lists(random: &mut Random) -> Vec<Input> {
    let lists = [generate::two_links(random), generate::full(MAX_NODES)];
    let lengths = [1, 2, 3, 4, 5, 8, 4_096, 65_536, 300_000];
    let mut longer = |list: &Topology, length| {
        let mut bytes = wire::emit(list);
        bytes.extend((0..length).map(|_| random.byte()));
        Input::new(format!("{length} bytes left over"), bytes)
    };
    let pairs = lists.iter().flat_map(|list| lengths.map(|length| (list, length)));
    pairs.map(|(list, length)| longer(list, length)).collect()
}

/// A random network with up to three changes, so that faults meet in one piece
/// and in several.
fn damaged(random: &mut Random) -> Input {
    let (shape, costs) = (random.pick(&Shape::ALL), random.pick(&Costs::ALL));
    let mut list = wire::emit(&generate::network(shape, costs, random));
    let changes: Vec<Damage> = (0..=random.below(3)).map(|_| random.pick(&Damage::ALL)).collect();
    for change in &changes {
        change.apply(&mut list, random);
    }
    Input::new(format!("{shape:?} with costs {costs:?}, changed by {changes:?}"), list)
}
