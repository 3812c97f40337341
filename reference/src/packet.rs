//! A packet and its segments, and what a router does with it.

use crate::node::NodeId;
use crate::repairs::Repair;
use crate::router::Router;
use std::collections::VecDeque;

/// The most segments of a packet.
pub const MAX_SEGMENTS: usize = 5;

/// The most segments that its sender may put.
pub const SENDER_SEGMENTS: usize = 3;

/// A part of the path that a packet is told to take.
#[derive(Clone, Copy, Debug, PartialEq, Eq)]
pub enum Segment {
    /// By the next hops to this node.
    Node(NodeId),
    /// Over this link.
    Link { from: NodeId, to: NodeId },
}

/// Why a packet is dropped.
#[derive(Clone, Copy, Debug, PartialEq, Eq)]
pub enum Drop {
    NoNextHop,
    NoRepair,
    TooManySegments,
    NoHopsLeft,
    /// A link segment that doesn't begin here, or whose link is down.
    WrongLink,
}

impl Drop {
    pub fn number(self) -> u8 {
        match self {
            Drop::NoNextHop | Drop::NoRepair | Drop::TooManySegments => 7,
            Drop::NoHopsLeft => 8,
            Drop::WrongLink => 9,
        }
    }
}

/// What a router does with a packet.
#[derive(Clone, Copy, Debug, PartialEq, Eq)]
pub enum Step {
    Arrived,
    To(NodeId),
}

#[derive(Clone, Debug)]
pub struct Packet {
    destination: NodeId,
    segments: VecDeque<Segment>,
    hop_limit: u16,
}

impl Packet {
    pub fn new(destination: NodeId, segments: &[Segment]) -> Packet {
        Packet { destination, segments: segments.iter().copied().collect(), hop_limit: u16::MAX }
    }

    pub fn with_hop_limit(self, hop_limit: u16) -> Packet {
        Packet { hop_limit, ..self }
    }

    pub fn destination(&self) -> NodeId {
        self.destination
    }

    pub fn hop_limit(&self) -> u16 {
        self.hop_limit
    }

    pub fn segments(&self) -> &VecDeque<Segment> {
        &self.segments
    }

    /// One handling at a router.
    pub fn handle(&mut self, router: &Router) -> Result<Step, Drop> {
        loop {
            self.take_off(router.node());
            let aim = match self.segments.front() {
                Some(&Segment::Link { from, to }) => return self.go_over(from, to, router),
                Some(&Segment::Node(node)) => node,
                None if self.destination == router.node() => return Ok(Step::Arrived),
                None => self.destination,
            };
            let next = router.next_hop(aim).ok_or(Drop::NoNextHop)?;
            if !router.is_down(next) {
                return self.go_to(next);
            }
            self.put(router.repair(aim).ok_or(Drop::NoRepair)?)?;
        }
    }

    /// Takes off the node segments that have been reached.
    fn take_off(&mut self, node: NodeId) {
        while self.segments.front() == Some(&Segment::Node(node)) {
            self.segments.pop_front();
        }
    }

    /// Goes where the first segment says, which is a link. A packet without
    /// hops left is dropped for that first.
    fn go_over(&mut self, from: NodeId, to: NodeId, router: &Router) -> Result<Step, Drop> {
        let step = self.go_to(to)?;
        if from != router.node() || !router.has_link_to(to) || router.is_down(to) {
            return Err(Drop::WrongLink);
        }
        self.segments.pop_front();
        Ok(step)
    }

    /// Every link takes one from the hop limit.
    fn go_to(&mut self, next: NodeId) -> Result<Step, Drop> {
        self.hop_limit = self.hop_limit.checked_sub(1).ok_or(Drop::NoHopsLeft)?;
        Ok(Step::To(next))
    }

    /// Puts a repair before all segments.
    fn put(&mut self, repair: Repair) -> Result<(), Drop> {
        if self.segments.len() + 2 > MAX_SEGMENTS {
            return Err(Drop::TooManySegments);
        }
        self.segments.push_front(Segment::Link { from: repair.p, to: repair.q });
        self.segments.push_front(Segment::Node(repair.p));
        Ok(())
    }
}
