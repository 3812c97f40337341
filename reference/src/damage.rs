//! Damage to lists of links in bytes, at random and one byte at a time.

use crate::random::Random;
use crate::wire::PIECE;

/// One change to a list. Some make no difference to some lists.
#[derive(Clone, Copy, Debug)]
pub enum Damage {
    AnyByte,
    Cut,
    LeftOver,
    CountOneMore,
    CountOneLess,
    NodeTooHigh,
    ZeroCost,
    SelfLink,
    HigherFirst,
    RepeatedLink,
    MovedLink,
    MissingLink,
}

impl Damage {
    pub const ALL: [Damage; 12] = [
        Damage::AnyByte,
        Damage::Cut,
        Damage::LeftOver,
        Damage::CountOneMore,
        Damage::CountOneLess,
        Damage::NodeTooHigh,
        Damage::ZeroCost,
        Damage::SelfLink,
        Damage::HigherFirst,
        Damage::RepeatedLink,
        Damage::MovedLink,
        Damage::MissingLink,
    ];

    /// Changes the list at a place chosen at random.
    pub fn apply(self, list: &mut Vec<u8>, random: &mut Random) {
        match self {
            Damage::AnyByte => {
                if !list.is_empty() {
                    let position = random.below(list.len());
                    list[position] = random.byte();
                }
            }
            Damage::Cut => list.truncate(random.below(list.len() + 1)),
            Damage::LeftOver => {
                let more = random.between(1..=2 * PIECE as u16);
                list.extend((0..more).map(|_| random.byte()));
            }
            Damage::CountOneMore => change_count(list, 1),
            Damage::CountOneLess => change_count(list, -1),
            Damage::NodeTooHigh => {
                let nodes = list.get(1).copied().unwrap_or_default();
                let end = random.below(2);
                change_link(list, random, |link| link[end] = nodes);
            }
            Damage::ZeroCost => change_link(list, random, |link| link[2..].fill(0)),
            Damage::SelfLink => change_link(list, random, |link| link[0] = link[1]),
            Damage::HigherFirst => change_link(list, random, |link| link.swap(0, 1)),
            Damage::RepeatedLink => {
                if let Some(start) = any_link(list, random) {
                    list.extend_from_within(start..start + PIECE);
                    list[start + PIECE..].rotate_right(PIECE);
                    change_count(list, 1);
                }
            }
            Damage::MovedLink => {
                if let Some(start) = any_link(list, random) {
                    let piece = list.drain(start..start + PIECE).collect::<Vec<_>>();
                    let place = any_link(list, random).unwrap_or(start);
                    list.splice(place..place, piece);
                }
            }
            Damage::MissingLink => {
                if let Some(start) = any_link(list, random) {
                    list.drain(start..start + PIECE);
                }
            }
        }
    }
}

/// Adds to the number of links in the header, modulo 65,536.
fn change_count(list: &mut [u8], more: i16) {
    if let [_, _, high, low, ..] = list {
        let count = u16::from_be_bytes([*high, *low]).wrapping_add_signed(more);
        [*high, *low] = count.to_be_bytes();
    }
}

fn change_link(list: &mut [u8], random: &mut Random, change: impl FnOnce(&mut [u8])) {
    if let Some(start) = any_link(list, random) {
        change(&mut list[start..start + PIECE]);
    }
}

/// Where one of the whole links of the list begins, if it has any.
fn any_link(list: &[u8], random: &mut Random) -> Option<usize> {
    let links = (list.len() / PIECE).checked_sub(1)?;
    (links > 0).then(|| PIECE * (1 + random.below(links)))
}

/// Every proper beginning of the list.
pub fn cuts(list: &[u8]) -> impl Iterator<Item = Vec<u8>> + '_ {
    (0..list.len()).map(|end| list[..end].to_vec())
}

/// The list with each of its bytes changed to each other value.
pub fn byte_changes(list: &[u8]) -> impl Iterator<Item = Vec<u8>> + '_ {
    (0..list.len()).flat_map(move |position| {
        (1..=u8::MAX).map(move |step| {
            let mut changed = list.to_vec();
            changed[position] = changed[position].wrapping_add(step);
            changed
        })
    })
}
