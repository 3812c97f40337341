//! Distances of the nodes from one destination, and the next hops that follow
//! from them.

use crate::adjacency::Adjacency;
use crate::node::{NodeId, NodeSet, MAX_NODES};
use crate::topology::Link;

/// Stands where there is no path: far above every distance, and sums with a
/// cost don't overflow.
const NO_PATH: u32 = u32::MAX / 2;

/// The distance of every node from one destination: the least cost of a path.
pub struct Distances([u32; MAX_NODES as usize]);

impl Distances {
    /// Dijkstra's algorithm.
    pub fn to(destination: NodeId, network: &Adjacency) -> Distances {
        Distances::search(destination, network, None)
    }

    /// As [`Distances::to`], but right only for `source` and for the nodes that
    /// are nearer than it: enough for the path from `source`, since every next
    /// hop is nearer than the node before it.
    pub fn up_to(source: NodeId, destination: NodeId, network: &Adjacency) -> Distances {
        Distances::search(destination, network, Some(source))
    }

    /// Settles nodes in the order of their distance, up to `last` where it is
    /// given.
    fn search(destination: NodeId, network: &Adjacency, last: Option<NodeId>) -> Distances {
        let mut distances = [NO_PATH; MAX_NODES as usize];
        distances[destination.index()] = 0;
        let mut settled = NodeSet::EMPTY;
        let mut frontier = NodeSet::EMPTY;
        frontier.insert(destination);
        while let Some(nearest) = frontier.min_by_key(|node| distances[node.index()]) {
            if Some(nearest) == last {
                break;
            }
            frontier.remove(nearest);
            settled.insert(nearest);
            let distance = distances[nearest.index()];
            for neighbour in network.neighbours(nearest).minus(settled) {
                let through = distance + network.cost(nearest, neighbour);
                let best = &mut distances[neighbour.index()];
                if through < *best {
                    *best = through;
                    frontier.insert(neighbour);
                }
            }
        }
        Distances(distances)
    }

    /// The distances when a link fails that touches just these nodes: they begin with the
    /// least over their links to the others, which keep theirs, and are settled like that.
    pub fn without(&self, failed: Link, touched: NodeSet, network: &Adjacency) -> Distances {
        let mut distances = self.0;
        for node in touched {
            let others = left(failed, node, network).minus(touched);
            let over = |other: NodeId| self.0[other.index()] + network.cost(node, other);
            distances[node.index()] = others.map(over).min().unwrap_or(NO_PATH).min(NO_PATH);
        }
        let mut unsettled = touched;
        while let Some(nearest) = unsettled.min_by_key(|node| distances[node.index()]) {
            unsettled.remove(nearest);
            let distance = distances[nearest.index()];
            for other in network.neighbours(nearest).and(unsettled) {
                let best = &mut distances[other.index()];
                *best = (*best).min(distance + network.cost(nearest, other));
            }
        }
        Distances(distances)
    }

    /// The lowest-numbered neighbour on a path of least cost when a link fails, of which
    /// these are the distances.
    pub fn next_hop_without(
        &self,
        failed: Link,
        node: NodeId,
        network: &Adjacency,
    ) -> Option<NodeId> {
        let distance = self.distance(node)?;
        left(failed, node, network).find(|&neighbour| {
            network.cost(node, neighbour) + self.0[neighbour.index()] == distance
        })
    }

    /// `None` where there is no path.
    pub fn distance(&self, node: NodeId) -> Option<u32> {
        let distance = self.0[node.index()];
        (distance != NO_PATH).then_some(distance)
    }

    /// The lowest-numbered neighbour on a path of least cost; `None` at the
    /// destination itself, and where there is no path.
    pub fn next_hop(&self, node: NodeId, network: &Adjacency) -> Option<NodeId> {
        let distance = self.distance(node)?;
        network.neighbours(node).find(|&neighbour| {
            network.cost(node, neighbour) + self.0[neighbour.index()] == distance
        })
    }
}

/// The neighbours of a node when a link fails.
fn left(failed: Link, node: NodeId, network: &Adjacency) -> NodeSet {
    let [lower, higher] = failed.ends();
    let mut neighbours = network.neighbours(node);
    if node == lower {
        neighbours.remove(higher);
    } else if node == higher {
        neighbours.remove(lower);
    }
    neighbours
}
