//! Networks that are the same for every call.

use crate::support::is_connected;
use reference::generate;

#[test]
fn sparse_networks() {
    // A case: nodes, links, and the most links of a node.
    let cases = [
        (3, 3, 2),
        (4, 6, 3),
        (5, 5, 2),
        (12, 30, 7),
        (32, 64, 6),
        (64, 64, 2),
        (64, 128, 6),
        (64, 2016, 63),
    ];
    for (nodes, links, most) in cases {
        let name = format!("{nodes} nodes, {links} links");
        let network = generate::sparse(nodes, links);
        assert_eq!(network.node_count(), nodes, "{name}");
        assert_eq!(network.links().len(), usize::from(links), "{name}");
        assert!(is_connected(&network), "{name}");
        let degree =
            |node| network.links().iter().filter(|link| link.ends().contains(&node)).count();
        assert_eq!(network.nodes().map(degree).max(), Some(most), "{name}");
    }
}
