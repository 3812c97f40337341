//! Lawful networks of many shapes.

use crate::node::{NodeId, MAX_NODES};
use crate::random::Random;
use crate::topology::{Link, Topology};
use std::collections::BTreeMap;
use std::ops::RangeInclusive;

/// How the links of a random network lie.
#[derive(Clone, Copy, Debug, PartialEq, Eq)]
pub enum Shape {
    Pair,
    Line,
    Ring,
    Tree,
    /// A tree and a few links more.
    Sparse,
    /// Half of all links or more.
    Dense,
    /// Two or three parts without a link between them.
    Unconnected,
    /// All links.
    Full,
    /// All links between 64 nodes.
    Largest,
}

impl Shape {
    pub const ALL: [Shape; 9] = [
        Shape::Pair,
        Shape::Line,
        Shape::Ring,
        Shape::Tree,
        Shape::Sparse,
        Shape::Dense,
        Shape::Unconnected,
        Shape::Full,
        Shape::Largest,
    ];
}

/// The range that the costs of a random network are from.
#[derive(Clone, Copy, Debug, PartialEq, Eq)]
pub enum Costs {
    /// So few costs that many paths are equal.
    Ties,
    /// Near the greatest cost.
    Large,
    Any,
}

impl Costs {
    pub const ALL: [Costs; 3] = [Costs::Ties, Costs::Large, Costs::Any];

    fn range(self) -> RangeInclusive<u16> {
        match self {
            Costs::Ties => 1..=3,
            Costs::Large => u16::MAX - 3..=u16::MAX,
            Costs::Any => 1..=u16::MAX,
        }
    }
}

/// A network of the shape, its nodes numbered at random.
pub fn network(shape: Shape, costs: Costs, random: &mut Random) -> Topology {
    let nodes = match shape {
        Shape::Pair => 2,
        Shape::Largest => MAX_NODES,
        _ if random.percent(50) => random.between(3..=12) as u8,
        _ => random.between(3..=MAX_NODES.into()) as u8,
    };
    let mut order: Vec<NodeId> = NodeId::first(nodes).collect();
    random.shuffle(&mut order);
    let mut draft = Draft { costs, random, links: BTreeMap::new() };
    draft.fill(shape, &order);
    draft.topology(nodes)
}

/// A network of a few nodes with two links that meet.
pub fn two_links(random: &mut Random) -> Topology {
    let nodes = random.between(3..=8) as u8;
    let mut order: Vec<NodeId> = NodeId::first(nodes).collect();
    random.shuffle(&mut order);
    let mut draft = Draft { costs: Costs::Any, random, links: BTreeMap::new() };
    draft.line(&order[..3]);
    draft.topology(nodes)
}

/// All links between `nodes` nodes, the same for every call.
pub fn full(nodes: u8) -> Topology {
    let order: Vec<NodeId> = NodeId::first(nodes).collect();
    let random = &mut Random::new(0);
    let mut draft = Draft { costs: Costs::Any, random, links: BTreeMap::new() };
    draft.some(&order, 100);
    draft.topology(nodes)
}

/// A ring of `nodes` nodes and chords spread evenly over all that there are, as
/// many links as asked for: the same for every call.
pub fn sparse(nodes: u8, links: u16) -> Topology {
    let order: Vec<NodeId> = NodeId::first(nodes).collect();
    let random = &mut Random::new(0);
    let mut draft = Draft { costs: Costs::Any, random, links: BTreeMap::new() };
    draft.ring(&order);
    let all = chords(&order);
    let chosen = usize::from(links) - order.len();
    for position in 0..chosen {
        let [a, b] = all[position * all.len() / chosen];
        draft.link(a, b);
    }
    draft.topology(nodes)
}

/// All pairs of nodes that are no neighbours on the ring.
fn chords(ring: &[NodeId]) -> Vec<[NodeId; 2]> {
    let far = |a: usize, b: usize| b - a > 1 && b - a < ring.len() - 1;
    let from = |a| (a..ring.len()).filter(move |&b| far(a, b)).map(move |b| [ring[a], ring[b]]);
    (0..ring.len()).flat_map(from).collect()
}

/// A line of 64 nodes in rising order, all at the greatest cost: its ends are as
/// far apart as nodes can be.
pub fn longest_line() -> Topology {
    let joined = |lower| Link { lower: NodeId(lower), higher: NodeId(lower + 1), cost: u16::MAX };
    lawful(MAX_NODES, (0..MAX_NODES - 1).map(joined))
}

fn lawful(nodes: u8, links: impl Iterator<Item = Link>) -> Topology {
    let mut topology = Topology::new(nodes).expect("1 to 64 nodes");
    for link in links {
        topology.push(link).expect("links in rising order");
    }
    topology
}

/// The links of a network so far.
struct Draft<'a> {
    costs: Costs,
    random: &'a mut Random,
    links: BTreeMap<[NodeId; 2], u16>,
}

impl Draft<'_> {
    fn fill(&mut self, shape: Shape, order: &[NodeId]) {
        match shape {
            Shape::Pair => self.some(order, 80),
            Shape::Line => self.line(order),
            Shape::Ring => self.ring(order),
            Shape::Tree => self.tree(order),
            Shape::Sparse => {
                self.tree(order);
                self.some(order, 3);
            }
            Shape::Dense => {
                let chance = 50 + self.random.below(50);
                self.some(order, chance);
            }
            Shape::Unconnected => {
                let parts = 2 + self.random.below(2);
                for part in order.chunks(order.len().div_ceil(parts)) {
                    self.tree(part);
                    self.some(part, 10);
                }
            }
            Shape::Full | Shape::Largest => self.some(order, 100),
        }
    }

    fn line(&mut self, order: &[NodeId]) {
        for pair in order.windows(2) {
            self.link(pair[0], pair[1]);
        }
    }

    fn ring(&mut self, order: &[NodeId]) {
        self.line(order);
        self.link(order[order.len() - 1], order[0]);
    }

    /// Joins each node to one before it.
    fn tree(&mut self, order: &[NodeId]) {
        for (position, &node) in order.iter().enumerate().skip(1) {
            let parent = order[self.random.below(position)];
            self.link(parent, node);
        }
    }

    /// Each link between two of the nodes with this chance in percent.
    fn some(&mut self, order: &[NodeId], chance: usize) {
        for (position, &a) in order.iter().enumerate() {
            for &b in &order[..position] {
                if self.random.percent(chance) {
                    self.link(a, b);
                }
            }
        }
    }

    fn link(&mut self, a: NodeId, b: NodeId) {
        let cost = self.random.between(self.costs.range());
        self.links.insert([a.min(b), a.max(b)], cost);
    }

    fn topology(self, nodes: u8) -> Topology {
        let links = self.links.into_iter();
        lawful(nodes, links.map(|([lower, higher], cost)| Link { lower, higher, cost }))
    }
}
