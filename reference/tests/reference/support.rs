//! Networks for tests.

use reference::adjacency::Adjacency;
use reference::distances::Distances;
use reference::generate::{self, Costs, Shape};
use reference::node::NodeId;
use reference::random::Random;
use reference::topology::{Link, Topology};

/// A network from links given as lower node, higher node and cost.
pub fn topology(nodes: u8, links: &[(u8, u8, u16)]) -> Topology {
    let mut topology = Topology::new(nodes).unwrap();
    for &(lower, higher, cost) in links {
        let (lower, higher) = (NodeId(lower), NodeId(higher));
        topology.push(Link { lower, higher, cost }).unwrap();
    }
    topology
}

pub fn without(network: &Topology, failed: Link) -> Topology {
    let mut rest = Topology::new(network.node_count()).unwrap();
    for &link in network.links().iter().filter(|link| **link != failed) {
        rest.push(link).unwrap();
    }
    rest
}

pub fn is_connected(network: &Topology) -> bool {
    let distances = Distances::to(NodeId(0), &Adjacency::of(network));
    network.nodes().all(|node| distances.distance(node).is_some())
}

/// Some networks of each shape with each range of costs.
pub fn random_networks() -> Vec<Topology> {
    let random = &mut Random::new(1);
    let kinds = Shape::ALL.iter().flat_map(|shape| Costs::ALL.map(|costs| (*shape, costs)));
    let kinds: Vec<_> = kinds.filter(|(shape, _)| *shape != Shape::Largest).collect();
    let many = kinds.iter().cycle().take(4 * kinds.len());
    many.map(|&(shape, costs)| generate::network(shape, costs, random)).collect()
}
