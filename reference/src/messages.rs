//! Packets and the messages between routers in bytes, numbers high byte first.
//! Reading goes piece by piece and stops at the first piece with a fault, which
//! is answered by its number.

use crate::node::NodeId;
use crate::packet::{Packet, Segment, MAX_SEGMENTS, SENDER_SEGMENTS};

pub const PACKET: u8 = 2;
pub const LINK_DOWN: u8 = 3;
pub const SWITCHED: u8 = 4;

/// The number of a fault.
pub type Number = u8;

/// Who hands a packet to a router.
#[derive(Clone, Copy, Debug, PartialEq, Eq)]
pub enum Origin {
    Sender,
    Neighbour,
}

/// A message between routers as it stands in bytes: links by their two nodes.
#[derive(Clone, Copy, Debug, PartialEq, Eq)]
pub enum Word {
    LinkDown { lower: NodeId, higher: NodeId },
    Switched { from: NodeId, destination: NodeId, lower: NodeId, higher: NodeId },
}

impl Word {
    pub fn link(self) -> (NodeId, NodeId) {
        match self {
            Word::LinkDown { lower, higher } | Word::Switched { lower, higher, .. } => {
                (lower, higher)
            }
        }
    }
}

/// The header, each segment, the end.
pub fn parse_packet(bytes: &[u8], nodes: u8, origin: Origin) -> Result<Packet, Number> {
    let Some((&[kind, destination, high, low, count], mut rest)) = bytes.split_first_chunk() else {
        return Err(1);
    };
    if kind != PACKET {
        return Err(1);
    }
    let (most, too_many) = match origin {
        Origin::Sender => (SENDER_SEGMENTS, 2),
        Origin::Neighbour => (MAX_SEGMENTS, 7),
    };
    if destination >= nodes {
        return Err(2);
    }
    if usize::from(count) > most {
        return Err(too_many);
    }
    let mut segments = Vec::new();
    for _ in 0..count {
        let (segment, after) = parse_segment(rest)?;
        segments.push(judge_segment(segment, nodes)?);
        rest = after;
    }
    if !rest.is_empty() {
        return Err(1);
    }
    let hop_limit = u16::from_be_bytes([high, low]);
    Ok(Packet::new(NodeId(destination), &segments).with_hop_limit(hop_limit))
}

fn parse_segment(bytes: &[u8]) -> Result<(Segment, &[u8]), Number> {
    match *bytes {
        [0, node, ref rest @ ..] => Ok((Segment::Node(NodeId(node)), rest)),
        [1, from, to, ref rest @ ..] => {
            Ok((Segment::Link { from: NodeId(from), to: NodeId(to) }, rest))
        }
        _ => Err(1),
    }
}

fn judge_segment(segment: Segment, nodes: u8) -> Result<Segment, Number> {
    match segment {
        Segment::Node(node) if node.0 >= nodes => Err(2),
        Segment::Link { from, to } if from.0 >= nodes || to.0 >= nodes => Err(2),
        Segment::Link { from, to } if from == to => Err(3),
        _ => Ok(segment),
    }
}

pub fn emit_packet(packet: &Packet) -> Vec<u8> {
    let mut bytes = vec![PACKET, packet.destination().0];
    bytes.extend(packet.hop_limit().to_be_bytes());
    bytes.push(packet.segments().len() as u8);
    for segment in packet.segments() {
        match *segment {
            Segment::Node(node) => bytes.extend([0, node.0]),
            Segment::Link { from, to } => bytes.extend([1, from.0, to.0]),
        }
    }
    bytes
}

/// All fields, the end.
pub fn parse_word(bytes: &[u8], nodes: u8) -> Result<Word, Number> {
    let (word, named, rest): (Word, &[u8], &[u8]) = match *bytes {
        [LINK_DOWN, lower, higher, ref rest @ ..] => {
            let word = Word::LinkDown { lower: NodeId(lower), higher: NodeId(higher) };
            (word, &bytes[1..3], rest)
        }
        [SWITCHED, from, destination, lower, higher, ref rest @ ..] => {
            let [from, destination, lower, higher] = [from, destination, lower, higher].map(NodeId);
            (Word::Switched { from, destination, lower, higher }, &bytes[1..5], rest)
        }
        _ => return Err(1),
    };
    if named.iter().any(|&node| node >= nodes) {
        return Err(2);
    }
    let (lower, higher) = word.link();
    if lower >= higher {
        return Err(3);
    }
    if !rest.is_empty() {
        return Err(1);
    }
    Ok(word)
}

pub fn emit_word(word: Word) -> Vec<u8> {
    match word {
        Word::LinkDown { lower, higher } => vec![LINK_DOWN, lower.0, higher.0],
        Word::Switched { from, destination, lower, higher } => {
            vec![SWITCHED, from.0, destination.0, lower.0, higher.0]
        }
    }
}
