//! Distances and next hops of a network for all destinations.

use crate::adjacency::Adjacency;
use crate::distances::Distances;
use crate::node::{NodeId, MAX_NODES};
use crate::topology::{Link, Topology};

/// The routes of all nodes to one destination.
struct Destination {
    distances: Distances,
    next_hops: [Option<NodeId>; MAX_NODES as usize],
}

impl Destination {
    fn new(destination: NodeId, topology: &Topology, network: &Adjacency) -> Destination {
        let distances = Distances::to(destination, network);
        let mut next_hops = [None; MAX_NODES as usize];
        for node in topology.nodes() {
            next_hops[node.index()] = distances.next_hop(node, network);
        }
        Destination { distances, next_hops }
    }
}

pub struct Routes(Vec<Destination>);

impl Routes {
    pub fn new(topology: &Topology, network: &Adjacency) -> Routes {
        let to = |destination| Destination::new(destination, topology, network);
        Routes(topology.nodes().map(to).collect())
    }

    /// `None` where there is no path.
    pub fn distance(&self, node: NodeId, destination: NodeId) -> Option<u32> {
        self.0[destination.index()].distances.distance(node)
    }

    pub fn distances(&self, destination: NodeId) -> &Distances {
        &self.0[destination.index()].distances
    }

    /// `None` at the destination itself, and where there is no path.
    pub fn next_hop(&self, node: NodeId, destination: NodeId) -> Option<NodeId> {
        self.0[destination.index()].next_hops[node.index()]
    }

    /// Whether the path by the next hops goes over the link, in either direction.
    pub fn path_uses(&self, link: Link, source: NodeId, destination: NodeId) -> bool {
        let mut node = source;
        while let Some(next) = self.next_hop(node, destination) {
            if link.joins(node, next) {
                return true;
            }
            node = next;
        }
        false
    }
}
