//! Distances and next hops.

use crate::support::{random_networks, topology};
use reference::adjacency::Adjacency;
use reference::generate;
use reference::node::NodeId;
use reference::routes::Routes;
use reference::topology::Topology;

fn routes(network: &Topology) -> Routes {
    Routes::new(network, &Adjacency::of(network))
}

#[test]
fn worked_cases() {
    let ring = topology(4, &[(0, 1, 1), (0, 3, 1), (1, 2, 1), (2, 3, 1)]);
    let triangle = topology(3, &[(0, 1, 9), (0, 2, 4), (1, 2, 4)]);
    let parts = topology(4, &[(0, 1, 5), (2, 3, 7)]);
    // A case: network, node, destination, distance and next hop.
    let cases = [
        ("a neighbour", &ring, 0, 1, Some(1), Some(1)),
        ("the lower of two equals", &ring, 0, 2, Some(2), Some(1)),
        ("the lower of two equals, in rising order", &ring, 3, 1, Some(2), Some(0)),
        ("the node itself", &ring, 2, 2, Some(0), None),
        ("a detour that costs less", &triangle, 0, 1, Some(8), Some(2)),
        ("no path", &parts, 0, 2, None, None),
        ("a part of its own", &parts, 3, 2, Some(7), Some(2)),
        ("the greatest distance", &generate::longest_line(), 63, 0, Some(4_128_705), Some(62)),
    ];
    for (name, network, node, destination, distance, next_hop) in cases {
        let routes = routes(network);
        let (node, destination) = (NodeId(node), NodeId(destination));
        assert_eq!(routes.distance(node, destination), distance, "{name}");
        assert_eq!(routes.next_hop(node, destination), next_hop.map(NodeId), "{name}");
    }
}

/// The distances of all nodes by going over all links until nothing changes.
fn distances_by_rounds(network: &Topology, destination: NodeId) -> Vec<Option<u32>> {
    let mut distances = vec![None; network.node_count().into()];
    distances[destination.index()] = Some(0);
    for _ in network.nodes() {
        for link in network.links() {
            let [a, b] = link.ends().map(NodeId::index);
            for (from, to) in [(a, b), (b, a)] {
                let through = distances[to].map(|rest: u32| rest + u32::from(link.cost));
                let both = [distances[from], through];
                distances[from] = both.into_iter().flatten().min();
            }
        }
    }
    distances
}

#[test]
fn distances_are_least() {
    for network in random_networks() {
        let routes = routes(&network);
        for destination in network.nodes() {
            let found: Vec<_> =
                network.nodes().map(|node| routes.distance(node, destination)).collect();
            assert_eq!(found, distances_by_rounds(&network, destination), "{network:?}");
        }
    }
}

#[test]
fn next_hops_are_the_lowest_of_the_nearest() {
    for network in random_networks() {
        let routes = routes(&network);
        for (node, destination) in pairs(&network) {
            let nearest = network.links().iter().filter_map(|link| {
                let neighbour = match link.ends() {
                    [end, other] | [other, end] if end == node => other,
                    _ => return None,
                };
                let through = routes.distance(neighbour, destination)? + u32::from(link.cost);
                (routes.distance(node, destination) == Some(through)).then_some(neighbour)
            });
            assert_eq!(routes.next_hop(node, destination), nearest.min(), "{network:?}");
        }
    }
}

fn pairs(network: &Topology) -> impl Iterator<Item = (NodeId, NodeId)> + '_ {
    network.nodes().flat_map(|node| network.nodes().map(move |other| (node, other)))
}
