//! A network as its list of links.

use crate::fault::Fault;
use crate::node::{NodeId, MAX_NODES};
use std::fmt;

/// A link of a network, with the same cost both ways.
#[derive(Clone, Copy, Debug, PartialEq, Eq, PartialOrd, Ord)]
pub struct Link {
    pub lower: NodeId,
    pub higher: NodeId,
    pub cost: u16,
}

impl Link {
    pub fn ends(&self) -> [NodeId; 2] {
        [self.lower, self.higher]
    }

    /// Whether a hop from `a` to `b` goes over this link.
    pub fn joins(&self, a: NodeId, b: NodeId) -> bool {
        self.ends() == [a, b] || self.ends() == [b, a]
    }
}

impl fmt::Display for Link {
    fn fmt(&self, f: &mut fmt::Formatter<'_>) -> fmt::Result {
        write!(f, "{}-{}", self.lower, self.higher)
    }
}

/// A lawful network: 1 to 64 nodes, and links in rising order, each between two
/// different nodes below the number of nodes, the lower one first, at a cost of
/// at least 1.
#[derive(Clone, Debug, PartialEq, Eq)]
pub struct Topology {
    nodes: u8,
    links: Vec<Link>,
}

impl Topology {
    /// A network without links.
    pub fn new(nodes: u8) -> Result<Topology, Fault> {
        if !(1..=MAX_NODES).contains(&nodes) {
            return Err(Fault::NodeCount { nodes });
        }
        Ok(Topology { nodes, links: Vec::new() })
    }

    /// Adds the next link. Where several faults apply, the answer is one with
    /// the lowest number.
    pub fn push(&mut self, link: Link) -> Result<(), Fault> {
        let position = self.links.len() + 1;
        let nodes = self.nodes;
        if let Some(node) = link.ends().into_iter().find(|node| node.0 >= nodes) {
            return Err(Fault::NodeOutOfRange { position, node, nodes });
        }
        if link.cost == 0 {
            return Err(Fault::ZeroCost { position, link });
        }
        if link.lower == link.higher {
            return Err(Fault::SelfLink { position, link });
        }
        if link.lower > link.higher {
            return Err(Fault::HigherFirst { position, link });
        }
        if let Some(&last) = self.links.last() {
            if link.ends() <= last.ends() {
                return Err(Fault::NotRising { position, link, last });
            }
        }
        self.links.push(link);
        Ok(())
    }

    /// The network after the link has failed.
    pub fn without(&self, failed: Link) -> Topology {
        let left = self.links.iter().filter(|link| **link != failed);
        Topology { nodes: self.nodes, links: left.copied().collect() }
    }

    /// The link between two nodes, named in either order.
    pub fn link(&self, a: NodeId, b: NodeId) -> Option<Link> {
        self.links.iter().find(|link| link.joins(a, b)).copied()
    }

    pub fn node_count(&self) -> u8 {
        self.nodes
    }

    pub fn nodes(&self) -> impl Iterator<Item = NodeId> + Clone {
        NodeId::first(self.nodes)
    }

    pub fn links(&self) -> &[Link] {
        &self.links
    }
}
