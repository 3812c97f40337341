//! Frames for `box`, and the messages that it writes.

use reference::messages::{LINK_DOWN, PACKET, SWITCHED};

pub fn frame(from: u8, message: &[u8]) -> Vec<u8> {
    let length = (message.len() as u16).to_be_bytes();
    [&[from], &length[..], message].concat()
}

/// A packet without segments, with the greatest hop limit but one.
pub fn packet_to(destination: u8) -> [u8; 5] {
    [PACKET, destination, 255, 254, 0]
}

pub fn link_down(lower: u8, higher: u8) -> [u8; 3] {
    [LINK_DOWN, lower, higher]
}

/// How many bytes stand behind the last whole message, each after a neighbour.
pub fn cut_at_end(written: &[u8]) -> usize {
    let mut rest = written;
    while let Some(size) = size_of_first(rest) {
        rest = &rest[size..];
    }
    rest.len()
}

/// The neighbour and the message in front, if they are whole.
fn size_of_first(written: &[u8]) -> Option<usize> {
    let size = match *written.get(1)? {
        LINK_DOWN => 4,
        SWITCHED => 6,
        PACKET => packet_size(written)?,
        _ => return None,
    };
    (size <= written.len()).then_some(size)
}

fn packet_size(written: &[u8]) -> Option<usize> {
    let mut size = 6;
    for _ in 0..*written.get(5)? {
        size += 2 + usize::from(*written.get(size)?);
    }
    Some(size)
}
