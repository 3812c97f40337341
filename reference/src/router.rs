//! One router: what it knows of a failed link, and how it switches to the new
//! next hops, destination by destination.

use crate::node::{NodeId, NodeSet};
use crate::plan::Plan;
use crate::repairs::Repair;
use crate::topology::Link;
use std::rc::Rc;

/// What a router tells a neighbour.
#[derive(Clone, Copy, Debug, PartialEq, Eq)]
pub enum Message {
    LinkDown {
        link: Link,
    },
    /// The teller has switched for the destination since the link failed.
    Switched {
        destination: NodeId,
        link: Link,
    },
}

/// A message and the neighbour that it goes to.
#[derive(Clone, Copy, Debug, PartialEq, Eq)]
pub struct Outgoing {
    pub to: NodeId,
    pub message: Message,
}

/// Why a router refuses a message. It changes nothing then.
#[derive(Clone, Copy, Debug, PartialEq, Eq)]
pub enum Refusal {
    /// The link isn't in the router's list.
    UnknownLink,
    /// Another link fails before the router has switched for all destinations.
    SecondFailure,
    /// Nobody waits for this Switched message.
    NotPending,
}

impl Refusal {
    pub fn number(self) -> u8 {
        match self {
            Refusal::UnknownLink => 4,
            Refusal::SecondFailure => 5,
            Refusal::NotPending => 6,
        }
    }
}

/// What comes of asking a router to switch for a destination.
#[derive(Clone, Copy, Debug, PartialEq, Eq)]
pub enum Switching {
    /// It isn't switching, or has switched for this destination.
    Nothing,
    /// It waits for these neighbours.
    Waits(NodeSet),
    /// It has switched now, and may tell its old next hop.
    Done(Option<Outgoing>),
}

/// A failed link that the router is switching for.
struct Failure {
    link: Link,
    /// The plan without the link.
    new: Plan,
    /// One a destination.
    repairs: Vec<Option<Repair>>,
    /// The destinations that the router has switched for.
    switched: NodeSet,
    /// The neighbours that it waits for, one set a destination.
    pending: Vec<NodeSet>,
}

/// A Switched message that came before the router knew of the failure.
#[derive(Clone, Copy, PartialEq, Eq)]
struct Early {
    from: NodeId,
    destination: NodeId,
    link: Link,
}

pub struct Router {
    node: NodeId,
    plan: Rc<Plan>,
    failure: Option<Failure>,
    early: Vec<Early>,
    /// The links that it has taken out of its list.
    removed: Vec<Link>,
}

impl Router {
    pub fn new(node: NodeId, plan: Rc<Plan>) -> Router {
        Router { node, plan, failure: None, early: Vec::new(), removed: Vec::new() }
    }

    pub fn node(&self) -> NodeId {
        self.node
    }

    /// Takes a message from a neighbour, and answers with what it tells others.
    pub fn hear(&mut self, from: NodeId, message: Message) -> Result<Vec<Outgoing>, Refusal> {
        match message {
            Message::LinkDown { link } => self.learn(link),
            Message::Switched { destination, link } => {
                self.hear_switched(Early { from, destination, link })?;
                Ok(Vec::new())
            }
        }
    }

    /// Whether the failure is news to the router.
    pub fn judge_failure(&self, link: Link) -> Result<bool, Refusal> {
        if self.removed.contains(&link) {
            return Ok(false);
        }
        if !self.plan.has(link) {
            return Err(Refusal::UnknownLink);
        }
        match &self.failure {
            None => Ok(true),
            Some(failure) if failure.link == link => Ok(false),
            Some(_) => Err(Refusal::SecondFailure),
        }
    }

    /// Takes note of a failed link. News of it goes to all neighbours but the
    /// one across the link.
    pub fn learn(&mut self, link: Link) -> Result<Vec<Outgoing>, Refusal> {
        if !self.judge_failure(link)? {
            return Ok(Vec::new());
        }
        let neighbours = self.plan.neighbours(self.node);
        let told = neighbours.filter(|&neighbour| !link.joins(self.node, neighbour));
        let news = told.map(|to| Outgoing { to, message: Message::LinkDown { link } }).collect();
        self.failure = Some(self.begin(link));
        self.finish_if_done();
        Ok(news)
    }

    /// The beginning of switching. Destinations whose path doesn't use the link
    /// keep their next hop, and are switched at once.
    fn begin(&self, link: Link) -> Failure {
        let nodes = self.plan.topology().nodes();
        let kept = |to: &NodeId| !self.plan.routes().path_uses(link, self.node, *to);
        let waited = |to| self.plan.upstream(link, self.node, to).minus(self.heard_early(link, to));
        Failure {
            link,
            new: self.plan.without(link),
            repairs: self.plan.repairs(link, self.node),
            switched: nodes.clone().filter(kept).collect(),
            pending: nodes.map(waited).collect(),
        }
    }

    /// The neighbours whose Switched message came before the failure was known.
    fn heard_early(&self, link: Link, destination: NodeId) -> NodeSet {
        let of = |early: &&Early| early.link == link && early.destination == destination;
        self.early.iter().filter(of).map(|early| early.from).collect()
    }

    fn hear_switched(&mut self, word: Early) -> Result<(), Refusal> {
        let Early { from, destination, link } = word;
        if self.removed.contains(&link) {
            return Err(Refusal::NotPending);
        }
        if !self.plan.has(link) {
            return Err(Refusal::UnknownLink);
        }
        match &mut self.failure {
            None => self.keep_early(word),
            Some(failure) => {
                let pending = &mut failure.pending[destination.index()];
                if failure.link != link || !pending.contains(from) {
                    return Err(Refusal::NotPending);
                }
                pending.remove(from);
                Ok(())
            }
        }
    }

    fn keep_early(&mut self, word: Early) -> Result<(), Refusal> {
        let upstream = self.plan.upstream(word.link, self.node, word.destination);
        if !upstream.contains(word.from) || self.early.contains(&word) {
            return Err(Refusal::NotPending);
        }
        self.early.push(word);
        Ok(())
    }

    /// Switches for the destination if the router may.
    pub fn switch(&mut self, destination: NodeId) -> Switching {
        let Some(failure) = &mut self.failure else {
            return Switching::Nothing;
        };
        if failure.switched.contains(destination) {
            return Switching::Nothing;
        }
        let pending = failure.pending[destination.index()];
        if !pending.is_empty() {
            return Switching::Waits(pending);
        }
        failure.switched.insert(destination);
        let link = failure.link;
        let old = self.plan.routes().next_hop(self.node, destination);
        let told = old.filter(|&to| !link.joins(self.node, to));
        self.finish_if_done();
        let message = Message::Switched { destination, link };
        Switching::Done(told.map(|to| Outgoing { to, message }))
    }

    /// When the router has switched for all destinations, the new plan is its
    /// plan, and nothing is kept but the link that it has taken out.
    fn finish_if_done(&mut self) {
        let done = |failure: &mut Failure| {
            self.plan.topology().nodes().all(|to| failure.switched.contains(to))
        };
        if let Some(failure) = self.failure.take_if(done) {
            self.removed.push(failure.link);
            self.plan = Rc::new(failure.new);
            self.early.clear();
        }
    }

    /// The present next hop: the new one where the router has switched.
    pub fn next_hop(&self, destination: NodeId) -> Option<NodeId> {
        let plan = match &self.failure {
            Some(failure) if failure.switched.contains(destination) => &failure.new,
            _ => &*self.plan,
        };
        plan.routes().next_hop(self.node, destination)
    }

    /// How many nodes its list has.
    pub fn node_count(&self) -> u8 {
        self.plan.topology().node_count()
    }

    /// The link between two nodes, if it is in the router's list or was taken out.
    pub fn known_link(&self, a: NodeId, b: NodeId) -> Option<Link> {
        let gone = self.removed.iter().find(|link| link.joins(a, b)).copied();
        self.plan.topology().link(a, b).or(gone)
    }

    /// Whether a link of the router's list leads to the node.
    pub fn has_link_to(&self, node: NodeId) -> bool {
        node.0 < self.node_count() && self.plan.neighbours(self.node).contains(node)
    }

    /// Whether the router knows its link to the node to be down.
    pub fn is_down(&self, neighbour: NodeId) -> bool {
        self.failed_link().is_some_and(|link| link.joins(self.node, neighbour))
    }

    pub fn repair(&self, destination: NodeId) -> Option<Repair> {
        self.failure.as_ref()?.repairs[destination.index()]
    }

    /// The link that the router is switching for.
    pub fn failed_link(&self) -> Option<Link> {
        self.failure.as_ref().map(|failure| failure.link)
    }

    /// The destinations that it has switched for, while it is switching.
    pub fn switched(&self) -> NodeSet {
        self.failure.as_ref().map_or(NodeSet::EMPTY, |failure| failure.switched)
    }

    /// The neighbours that it waits for before it switches for the destination.
    pub fn pending(&self, destination: NodeId) -> NodeSet {
        let pending = |failure: &Failure| failure.pending[destination.index()];
        self.failure.as_ref().map_or(NodeSet::EMPTY, pending)
    }
}
