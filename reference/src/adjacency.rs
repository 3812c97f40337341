//! A network as the neighbours of each node and the costs to them.

use crate::node::{NodeId, NodeSet, MAX_NODES};
use crate::topology::{Link, Topology};

const NODES: usize = MAX_NODES as usize;

#[derive(Clone)]
pub struct Adjacency {
    neighbours: [NodeSet; NODES],
    /// Meant only between neighbours.
    costs: [[u32; NODES]; NODES],
}

impl Adjacency {
    pub fn of(topology: &Topology) -> Adjacency {
        let mut adjacency =
            Adjacency { neighbours: [NodeSet::EMPTY; NODES], costs: [[0; NODES]; NODES] };
        for link in topology.links() {
            let [a, b] = link.ends();
            let cost = u32::from(link.cost);
            adjacency.neighbours[a.index()].insert(b);
            adjacency.neighbours[b.index()].insert(a);
            adjacency.costs[a.index()][b.index()] = cost;
            adjacency.costs[b.index()][a.index()] = cost;
        }
        adjacency
    }

    /// The network after the link has failed.
    pub fn without(&self, failed: Link) -> Adjacency {
        let [a, b] = failed.ends();
        let mut rest = self.clone();
        rest.neighbours[a.index()].remove(b);
        rest.neighbours[b.index()].remove(a);
        rest
    }

    pub fn neighbours(&self, node: NodeId) -> NodeSet {
        self.neighbours[node.index()]
    }

    /// The cost of the link between two neighbours.
    pub fn cost(&self, node: NodeId, neighbour: NodeId) -> u32 {
        self.costs[node.index()][neighbour.index()]
    }
}
