//! Repairs.

use crate::support::{random_networks, topology, without};
use reference::adjacency::Adjacency;
use reference::node::NodeId;
use reference::quick;
use reference::repairs::{protections, Protection, Repair};
use reference::routes::Routes;
use reference::topology::{Link, Topology};

fn repaired(sender: u8, p: u8, q: u8, cost: u32) -> Protection {
    let repair = Repair { p: NodeId(p), q: NodeId(q), cost };
    Protection::Repaired { sender: NodeId(sender), repair }
}

fn apart(sender: u8) -> Protection {
    Protection::Apart { sender: NodeId(sender) }
}

fn link(network: &Topology, lower: u8, higher: u8) -> Link {
    let ends = [lower, higher].map(NodeId);
    *network.links().iter().find(|link| link.ends() == ends).unwrap()
}

#[test]
fn worked_cases() {
    let ring = topology(4, &[(0, 1, 1), (0, 3, 1), (1, 2, 1), (2, 3, 1)]);
    let triangle = topology(3, &[(0, 1, 1), (0, 2, 1), (1, 2, 1)]);
    let pair = topology(2, &[(0, 1, 1)]);
    // The path round the link 0-1 is 0, 2, 3, 4, 1, and each of its hops serves.
    let chain = topology(5, &[(0, 1, 3), (0, 2, 1), (1, 4, 1), (2, 3, 1), (3, 4, 1)]);
    let cases = [
        ("ring, a neighbour", &ring, (0, 1), 1, repaired(0, 3, 2, 3)),
        ("ring, one of two equals", &ring, (0, 1), 2, repaired(0, 3, 2, 2)),
        ("ring, the other end sends", &ring, (0, 1), 3, repaired(1, 2, 3, 2)),
        ("ring, nobody sends", &ring, (0, 3), 2, Protection::Unused),
        ("triangle", &triangle, (0, 1), 1, repaired(0, 2, 1, 2)),
        ("pair, one way", &pair, (0, 1), 1, apart(0)),
        ("pair, the other way", &pair, (0, 1), 0, apart(1)),
        ("the last that serves", &chain, (0, 1), 1, repaired(0, 4, 1, 4)),
    ];
    for (name, network, (lower, higher), destination, protection) in cases {
        let adjacency = Adjacency::of(network);
        let routes = Routes::new(network, &adjacency);
        let found = protections(link(network, lower, higher), network, &adjacency, &routes);
        assert_eq!(found[destination], protection, "{name}");
    }
}

/// A network with its routes.
struct Network {
    topology: Topology,
    adjacency: Adjacency,
    routes: Routes,
}

impl Network {
    fn new(topology: Topology) -> Network {
        let adjacency = Adjacency::of(&topology);
        let routes = Routes::new(&topology, &adjacency);
        Network { topology, adjacency, routes }
    }

    fn path(&self, source: NodeId, destination: NodeId) -> Vec<NodeId> {
        let mut path = vec![source];
        while let Some(next) = self.routes.next_hop(path[path.len() - 1], destination) {
            path.push(next);
        }
        path
    }
}

/// Whether the path goes over the link.
fn goes_over(path: &[NodeId], link: Link) -> bool {
    path.windows(2).any(|hop| link.joins(hop[0], hop[1]))
}

/// The definition, from the routes of the whole rest of the network.
fn by_definition(network: &Network, failed: Link, destination: NodeId) -> Protection {
    let [lower, higher] = failed.ends();
    let sends = |(end, other): &(NodeId, NodeId)| {
        network.routes.next_hop(*end, destination) == Some(*other)
    };
    let Some((sender, _)) = [(lower, higher), (higher, lower)].into_iter().find(sends) else {
        return Protection::Unused;
    };
    let rest = Network::new(without(&network.topology, failed));
    let Some(cost) = rest.routes.distance(sender, destination) else {
        return Protection::Apart { sender };
    };
    let mut last = Protection::Apart { sender };
    for hop in rest.path(sender, destination).windows(2) {
        let repair = Repair { p: hop[0], q: hop[1], cost };
        let uses = goes_over(&network.path(sender, repair.p), failed)
            || goes_over(&network.path(repair.q, destination), failed);
        if !uses {
            last = Protection::Repaired { sender, repair };
        }
    }
    last
}

#[test]
fn repairs_are_as_defined() {
    for topology in random_networks().into_iter().filter(|network| network.node_count() <= 12) {
        let network = Network::new(topology);
        for &failed in network.topology.links() {
            let found = protections(failed, &network.topology, &network.adjacency, &network.routes);
            for (destination, found) in network.topology.nodes().zip(found) {
                assert_eq!(
                    found,
                    by_definition(&network, failed, destination),
                    "{failed} for {destination} of {:?}",
                    network.topology
                );
            }
        }
    }
}

#[test]
fn a_repair_costs_what_the_path_without_the_link_costs() {
    for topology in random_networks().into_iter().filter(|network| network.node_count() <= 30) {
        let Network { topology, adjacency, routes } = Network::new(topology);
        for &failed in topology.links() {
            let rest = Network::new(without(&topology, failed)).routes;
            let found = protections(failed, &topology, &adjacency, &routes);
            for (destination, found) in topology.nodes().zip(found) {
                match found {
                    Protection::Unused => {}
                    Protection::Apart { sender } => {
                        let left = rest.distance(sender, destination);
                        assert_eq!(left, None, "{failed} for {destination}");
                    }
                    Protection::Repaired { sender, repair: Repair { p, q, cost } } => {
                        let parts = [
                            routes.distance(sender, p),
                            Some(adjacency.cost(p, q)),
                            routes.distance(q, destination),
                        ];
                        assert_eq!(parts.into_iter().sum::<Option<u32>>(), Some(cost));
                        assert_eq!(rest.distance(sender, destination), Some(cost));
                    }
                }
            }
        }
    }
}

/// Only what a failed link touches is worked out anew, and nothing else comes of it.
#[test]
fn quick_as_well() {
    for network in random_networks() {
        let adjacency = Adjacency::of(&network);
        let routes = Routes::new(&network, &adjacency);
        for &link in network.links() {
            let plain = protections(link, &network, &adjacency, &routes);
            assert_eq!(quick::protections(link, &network, &adjacency, &routes), plain, "{link}");
        }
    }
}
