//! A whole network: its routers, the messages under way between them, and
//! packets.

use crate::adjacency::Adjacency;
use crate::node::NodeId;
use crate::packet::{Drop, Packet, Segment, Step};
use crate::plan::Plan;
use crate::router::{Message, Outgoing, Refusal, Router, Switching};
use crate::topology::{Link, Topology};
use std::collections::BTreeMap;
use std::rc::Rc;

/// A message under way.
#[derive(Clone, Copy, Debug, PartialEq, Eq)]
pub struct Posted {
    pub from: NodeId,
    pub to: NodeId,
    pub message: Message,
}

/// How a packet ended.
pub type End = Result<(), Drop>;

/// A packet with the path that it has gone.
pub struct Journey {
    packet: Packet,
    path: Vec<NodeId>,
    cost: u64,
    end: Option<End>,
}

impl Journey {
    fn new(start: NodeId, packet: Packet) -> Journey {
        Journey { packet, path: vec![start], cost: 0, end: None }
    }

    /// From its start to where it is.
    pub fn path(&self) -> &[NodeId] {
        &self.path
    }

    pub fn place(&self) -> NodeId {
        self.path[self.path.len() - 1]
    }

    pub fn cost(&self) -> u64 {
        self.cost
    }

    pub fn end(&self) -> Option<End> {
        self.end
    }
}

pub struct Network {
    /// The list of links and the costs before any failure.
    topology: Topology,
    costs: Adjacency,
    routers: Vec<Router>,
    /// The messages under way by their numbers.
    messages: BTreeMap<u64, Posted>,
    /// How many messages there have been.
    posted: u64,
    packets: Vec<Journey>,
}

impl Network {
    pub fn new(topology: Topology) -> Network {
        let plan = Rc::new(Plan::of(topology.clone()));
        Network {
            costs: Adjacency::of(&topology),
            routers: topology.nodes().map(|node| Router::new(node, plan.clone())).collect(),
            topology,
            messages: BTreeMap::new(),
            posted: 0,
            packets: Vec::new(),
        }
    }

    pub fn topology(&self) -> &Topology {
        &self.topology
    }

    pub fn routers(&self) -> &[Router] {
        &self.routers
    }

    /// The messages under way, lowest number first.
    pub fn messages(&self) -> impl Iterator<Item = (u64, Posted)> + '_ {
        self.messages.iter().map(|(&number, &posted)| (number, posted))
    }

    pub fn packets(&self) -> &[Journey] {
        &self.packets
    }

    /// A link fails, and its ends know it. Where an end refuses, neither has
    /// changed.
    pub fn close(&mut self, a: NodeId, b: NodeId) -> Result<Link, Refusal> {
        let link = self.topology.link(a, b).ok_or(Refusal::UnknownLink)?;
        for end in link.ends() {
            self.routers[end.index()].judge_failure(link)?;
        }
        for end in link.ends() {
            let said = self.routers[end.index()].learn(link)?;
            self.post(end, said);
        }
        Ok(link)
    }

    fn post(&mut self, from: NodeId, said: impl IntoIterator<Item = Outgoing>) {
        for Outgoing { to, message } in said {
            self.posted += 1;
            self.messages.insert(self.posted, Posted { from, to, message });
        }
    }

    /// A message arrives, and is under way no more.
    pub fn deliver(&mut self, number: u64) -> Option<Result<(), Refusal>> {
        let posted = self.messages.remove(&number)?;
        Some(self.arrive(posted))
    }

    /// A message arrives, and stays under way.
    pub fn repeat(&mut self, number: u64) -> Option<Result<(), Refusal>> {
        let posted = *self.messages.get(&number)?;
        Some(self.arrive(posted))
    }

    fn arrive(&mut self, posted: Posted) -> Result<(), Refusal> {
        let Posted { from, to, message } = posted;
        let said = self.routers[to.index()].hear(from, message)?;
        self.post(to, said);
        Ok(())
    }

    /// A router switches for a destination if it may.
    pub fn switch(&mut self, router: NodeId, destination: NodeId) -> Switching {
        let switching = self.routers[router.index()].switch(destination);
        if let Switching::Done(said) = switching {
            self.post(router, said);
        }
        switching
    }

    /// All routers switch for all destinations that they may, until none may.
    pub fn switch_all(&mut self) {
        while self.switch_round() {}
    }

    /// Whether any router has switched.
    fn switch_round(&mut self) -> bool {
        let nodes: Vec<NodeId> = self.topology.nodes().collect();
        let mut any = false;
        for &router in &nodes {
            for &destination in &nodes {
                any |= matches!(self.switch(router, destination), Switching::Done(_));
            }
        }
        any
    }

    /// A packet that waits at its start; the answer is its number.
    pub fn put(&mut self, start: NodeId, destination: NodeId, segments: &[Segment]) -> usize {
        self.packets.push(Journey::new(start, Packet::new(destination, segments)));
        self.packets.len()
    }

    /// One handling of a packet, at the router where it is. `None` where there
    /// is no such packet, or it has ended.
    pub fn hop(&mut self, number: usize) -> Option<&Journey> {
        let journey = self.packets.get_mut(number.checked_sub(1)?)?;
        if journey.end.is_some() {
            return None;
        }
        let place = journey.place();
        match journey.packet.handle(&self.routers[place.index()]) {
            Ok(Step::Arrived) => journey.end = Some(Ok(())),
            Err(drop) => journey.end = Some(Err(drop)),
            Ok(Step::To(next)) => {
                journey.cost += u64::from(self.costs.cost(place, next));
                journey.path.push(next);
            }
        }
        Some(journey)
    }

    /// A packet is handled until it ends. `None` as with `hop`.
    pub fn run(&mut self, number: usize) -> Option<&Journey> {
        self.hop(number)?;
        while self.hop(number).is_some() {}
        self.packets.get(number - 1)
    }
}
