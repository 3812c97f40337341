//! The example networks.

use crate::support::{is_connected, topology, without};
use reference::topology::Topology;
use reference::wire::parse;

fn example(name: &str) -> Topology {
    let path = format!("{}/../examples/{name}", env!("CARGO_MANIFEST_DIR"));
    let list = std::fs::read(&path).unwrap_or_else(|error| panic!("{path}: {error}"));
    parse(&list).unwrap_or_else(|fault| panic!("{path}: {fault}"))
}

#[test]
fn ring_of_four() {
    let ring = topology(4, &[(0, 1, 1), (0, 3, 1), (1, 2, 1), (2, 3, 1)]);
    assert_eq!(example("ring4.links"), ring);
}

#[test]
fn no_single_failure_cuts_the_railway() {
    let railway = example("railway.links");
    assert_eq!(railway.node_count(), 60);
    assert!(is_connected(&railway));
    for &failed in railway.links() {
        assert!(is_connected(&without(&railway, failed)), "without {failed}");
    }
}
