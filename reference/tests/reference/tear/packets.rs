//! Where packets go while routers switch, on random networks.

use crate::support::{is_connected, random_networks, without};
use reference::adjacency::Adjacency;
use reference::network::Network;
use reference::node::NodeId;
use reference::random::Random;
use reference::routes::Routes;
use reference::script::play_line;
use reference::topology::{Link, Topology};

/// How a packet went, as it was printed.
struct Went {
    path: Vec<NodeId>,
    arrived: bool,
    cost: u32,
}

fn send(network: &mut Network, from: NodeId, to: NodeId) -> Went {
    let text = play_line(format!("send {from} {to}").as_bytes(), network).unwrap();
    let words: Vec<&str> = text.split_whitespace().collect();
    let path = words[2..].iter().map_while(|word| word.parse().ok().map(NodeId)).collect();
    Went { path, arrived: words.contains(&"arrived"), cost: words.last().unwrap().parse().unwrap() }
}

fn path_cost(path: &[NodeId], costs: &Adjacency) -> u32 {
    path.windows(2).map(|hop| costs.cost(hop[0], hop[1])).sum()
}

/// Every packet arrives. From the end that sent over the failed link on, it
/// costs exactly the post-convergence distance; where all have switched, it
/// does so from its start.
fn check_packets(
    network: &mut Network,
    before: &Routes,
    after: &Routes,
    failed: Link,
    settled: bool,
) {
    let topology = network.topology().clone();
    let costs = Adjacency::of(&topology);
    for from in topology.nodes() {
        for to in topology.nodes() {
            let went = send(network, from, to);
            assert!(went.arrived, "{from} to {to} without {failed} of {topology:?}");
            assert_eq!(path_cost(&went.path, &costs), went.cost);
            let sender = failed
                .ends()
                .into_iter()
                .find(|&end| before.next_hop(end, to).is_some_and(|next| failed.joins(end, next)));
            let reached = went.path.iter().position(|&node| Some(node) == sender);
            if let Some(position) = reached {
                let rest = path_cost(&went.path[position..], &costs);
                assert_eq!(Some(rest), after.distance(went.path[position], to), "{topology:?}");
            }
            if settled {
                assert_eq!(Some(went.cost), after.distance(from, to), "{topology:?}");
            }
        }
    }
}

/// A random line that delivers or switches.
fn any_line(network: &Network, random: &mut Random) -> String {
    let nodes = usize::from(network.topology().node_count());
    let numbers: Vec<u64> = network.messages().map(|(number, _)| number).collect();
    match random.below(10) {
        0..=3 if !numbers.is_empty() => format!("deliver {}", random.pick(&numbers)),
        4 if !numbers.is_empty() => format!("again {}", random.pick(&numbers)),
        5 => "over all".into(),
        _ => format!("over {} {}", random.below(nodes), random.below(nodes)),
    }
}

fn check_failure(topology: &Topology, failed: Link, random: &mut Random) {
    let rest = without(topology, failed);
    let [before, after] = [topology, &rest].map(|it| Routes::new(it, &Adjacency::of(it)));
    let mut network = Network::new(topology.clone());
    let close = format!("close {} {}", failed.lower, failed.higher);
    play_line(close.as_bytes(), &mut network).unwrap();
    for step in 0..40 {
        if step % 4 == 0 {
            check_packets(&mut network, &before, &after, failed, false);
        }
        let line = any_line(&network, random);
        play_line(line.as_bytes(), &mut network).unwrap();
    }
    while network.messages().next().is_some() || !is_settled(&network) {
        check_packets(&mut network, &before, &after, failed, false);
        let text = play_line(b"deliver all", &mut network).unwrap();
        assert_eq!(text, "", "nothing is refused");
        play_line(b"over all", &mut network).unwrap();
    }
    check_packets(&mut network, &before, &after, failed, true);
    for router in network.routers() {
        for to in topology.nodes() {
            assert_eq!(router.next_hop(to), after.next_hop(router.node(), to), "{topology:?}");
        }
    }
}

fn is_settled(network: &Network) -> bool {
    network.routers().iter().all(|router| router.failed_link().is_none())
}

#[test]
fn packets_arrive_at_every_moment() {
    let random = &mut Random::new(3);
    let mut failures = 0;
    for topology in random_networks().into_iter().filter(|network| network.node_count() <= 12) {
        let mut links = topology.links().to_vec();
        random.shuffle(&mut links);
        links.retain(|&link| is_connected(&without(&topology, link)));
        for &failed in links.iter().take(4) {
            check_failure(&topology, failed, random);
            failures += 1;
        }
    }
    assert!(failures > 50, "only {failures} failures");
}
