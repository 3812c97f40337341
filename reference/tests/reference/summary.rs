//! Summaries, held against the routes of the network without each link.

use crate::support::{random_networks, without};
use reference::adjacency::Adjacency;
use reference::routes::Routes;
use reference::summary::Summary;
use reference::topology::Topology;

/// The definition: what each end of each link loses with it.
fn by_definition(topology: &Topology, routes: &Routes) -> String {
    let (mut used, mut repaired) = (0, 0);
    let mut cuts = String::new();
    let mut costs = Vec::new();
    for &failed in topology.links() {
        let rest = without(topology, failed);
        let rest = Routes::new(&rest, &Adjacency::of(&rest));
        let [lower, higher] = failed.ends();
        for (end, other) in [(lower, higher), (higher, lower)] {
            let mut lost = String::new();
            for to in topology.nodes().filter(|&to| routes.next_hop(end, to) == Some(other)) {
                used += 1;
                let Some(cost) = rest.distance(end, to) else {
                    lost += &format!(" {to}");
                    continue;
                };
                repaired += 1;
                let was = routes.distance(end, to).unwrap();
                let line = format!("{failed}: {end} to {to} costs {cost}, was {was}");
                costs.push((cost - was, failed, to, line));
            }
            if !lost.is_empty() {
                cuts += &format!("cut off {failed}: {end} from{lost}\n");
            }
        }
    }
    costs.sort_by_key(|&(more, failed, to, _)| (u32::MAX - more, failed, to));
    let longest = costs.first().map_or("none", |(.., line)| line);
    let cuts = if cuts.is_empty() { "cut off none\n" } else { &cuts };
    format!(
        "places {}\nlinks {}\nrepaired {repaired} of {used}\n{cuts}longest {longest}\n",
        topology.node_count(),
        topology.links().len(),
    )
}

#[test]
fn summaries_are_as_defined() {
    for topology in random_networks().into_iter().filter(|network| network.node_count() <= 30) {
        let network = Adjacency::of(&topology);
        let routes = Routes::new(&topology, &network);
        let found = Summary::of(&topology, &network, &routes).to_string();
        assert_eq!(found, by_definition(&topology, &routes), "{topology:?}");
    }
}
