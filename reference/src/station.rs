//! One router that takes frames in bytes, and writes what it hands on and says.

use crate::messages::{
    emit_packet, emit_word, parse_packet, parse_word, Number, Origin, Word, LINK_DOWN, PACKET,
    SWITCHED,
};
use crate::node::NodeId;
use crate::packet::Step;
use crate::plan::Plan;
use crate::router::{Message, Outgoing, Refusal, Router, Switching};
use crate::topology::Topology;
use crate::wire::{self, LINKS};
use std::fmt;
use std::rc::Rc;

/// A frame that is refused. Frames count from 1.
#[derive(Clone, Copy, Debug, PartialEq, Eq)]
pub struct Complaint {
    pub frame: usize,
    pub number: Number,
}

impl fmt::Display for Complaint {
    fn fmt(&self, f: &mut fmt::Formatter<'_>) -> fmt::Result {
        write!(f, "frame {}: fault {}: refused", self.frame, self.number)
    }
}

/// What was written, and what was complained of.
#[derive(Clone, Debug, Default, PartialEq, Eq)]
pub struct Written {
    pub output: Vec<u8>,
    pub complaints: Vec<Complaint>,
}

/// Plays all frames: the node that a frame comes from (1), length (2), message.
pub fn play(node: NodeId, mut frames: &[u8]) -> Written {
    let mut station = Station { node, router: None };
    let mut written = Written::default();
    let mut frame = 0;
    while !frames.is_empty() {
        frame += 1;
        let result = match split(frames) {
            Some((from, message, rest)) => {
                frames = rest;
                station.take(from, message)
            }
            None => {
                frames = &[];
                Err(1)
            }
        };
        match result {
            Ok(output) => written.output.extend(output),
            Err(6) => {}
            Err(number) => written.complaints.push(Complaint { frame, number }),
        }
    }
    written
}

/// The frame in front, if it is whole, and what stands behind it.
fn split(frames: &[u8]) -> Option<(NodeId, &[u8], &[u8])> {
    let (&[from, high, low], rest) = frames.split_first_chunk()?;
    let (message, rest) = rest.split_at_checked(u16::from_be_bytes([high, low]).into())?;
    Some((NodeId(from), message, rest))
}

struct Station {
    node: NodeId,
    /// From the first list of links on.
    router: Option<Router>,
}

impl Station {
    fn take(&mut self, from: NodeId, message: &[u8]) -> Result<Vec<u8>, Number> {
        let Some(router) = &mut self.router else {
            if from != self.node {
                return Err(4);
            }
            self.router = Some(list(self.node, message)?);
            return Ok(Vec::new());
        };
        if from != self.node && !router.has_link_to(from) {
            return Err(4);
        }
        match message.first() {
            Some(&LINKS) => {
                let next = list(self.node, message)?;
                if router.failed_link().is_some() {
                    return Err(5);
                }
                *router = next;
                Ok(Vec::new())
            }
            Some(&PACKET) => take_packet(router, from, message),
            Some(&(LINK_DOWN | SWITCHED)) => take_word(router, from, message),
            _ => Err(1),
        }
    }
}

fn list(node: NodeId, message: &[u8]) -> Result<Router, Number> {
    let topology: Topology = wire::parse(message).map_err(|fault| fault.number())?;
    if node.0 >= topology.node_count() {
        return Err(2);
    }
    Ok(Router::new(node, Rc::new(Plan::of(topology))))
}

/// A packet that arrives is written after the router's own number.
fn take_packet(router: &Router, from: NodeId, message: &[u8]) -> Result<Vec<u8>, Number> {
    let origin = if from == router.node() { Origin::Sender } else { Origin::Neighbour };
    let mut packet = parse_packet(message, router.node_count(), origin)?;
    let to = match packet.handle(router).map_err(|drop| drop.number())? {
        Step::Arrived => router.node(),
        Step::To(neighbour) => neighbour,
    };
    let mut output = vec![to.0];
    output.extend(emit_packet(&packet));
    Ok(output)
}

/// News first, and then what is said of switching, by rising destination.
fn take_word(router: &mut Router, from: NodeId, message: &[u8]) -> Result<Vec<u8>, Number> {
    let word = parse_word(message, router.node_count())?;
    let mut said = hear(router, from, word).map_err(Refusal::number)?;
    for destination in NodeId::first(router.node_count()) {
        if let Switching::Done(Some(outgoing)) = router.switch(destination) {
            said.push(outgoing);
        }
    }
    Ok(said.into_iter().flat_map(|outgoing| emit(router.node(), outgoing)).collect())
}

/// A link that the router neither has nor has taken out is the first thing that
/// it minds; then that a Switched message comes from who says it.
fn hear(router: &mut Router, from: NodeId, word: Word) -> Result<Vec<Outgoing>, Refusal> {
    let (lower, higher) = word.link();
    let link = router.known_link(lower, higher).ok_or(Refusal::UnknownLink)?;
    match word {
        Word::LinkDown { .. } => router.hear(from, Message::LinkDown { link }),
        Word::Switched { from: teller, .. } if teller != from => Err(Refusal::NotPending),
        Word::Switched { destination, .. } => {
            router.hear(from, Message::Switched { destination, link })
        }
    }
}

fn emit(node: NodeId, outgoing: Outgoing) -> Vec<u8> {
    let word = match outgoing.message {
        Message::LinkDown { link } => Word::LinkDown { lower: link.lower, higher: link.higher },
        Message::Switched { destination, link } => {
            Word::Switched { from: node, destination, lower: link.lower, higher: link.higher }
        }
    };
    [vec![outgoing.to.0], emit_word(word)].concat()
}
