//! What a router does with a packet.

use crate::support::topology;
use reference::network::Network;
use reference::node::NodeId;
use reference::packet::{Packet, Segment, Step};

#[test]
fn handled_once() {
    // A ring of four and a node apart. Router 0 knows that 0-1 is down.
    let ring = topology(5, &[(0, 1, 1), (0, 3, 1), (1, 2, 1), (2, 3, 1)]);
    let mut network = Network::new(ring);
    network.close(NodeId(0), NodeId(1)).unwrap();
    let node = |number| Segment::Node(NodeId(number));
    let link = |from, to| Segment::Link { from: NodeId(from), to: NodeId(to) };
    // A case: destination, segments, hop limit, and what router 0 does: the next
    // node, or the number by which it is dropped.
    let cases = [
        ("arrived", 0, vec![], 0, Ok(Step::Arrived)),
        ("arrived after its segments", 0, vec![node(0), node(0)], 0, Ok(Step::Arrived)),
        ("by the table", 3, vec![], 1, Ok(Step::To(NodeId(3)))),
        ("no hops left", 3, vec![], 0, Err(8)),
        ("by a repair", 1, vec![], 1, Ok(Step::To(NodeId(3)))),
        ("by a repair, no hops left", 1, vec![], 0, Err(8)),
        ("no entry", 4, vec![], 1, Err(7)),
        ("no entry, no hops left", 4, vec![], 0, Err(7)),
        ("no entry for a segment", 3, vec![node(4)], 1, Err(7)),
        ("over a link", 0, vec![node(0), link(0, 3)], 1, Ok(Step::To(NodeId(3)))),
        ("over a link, no hops left", 0, vec![link(0, 3)], 0, Err(8)),
        ("a link that doesn't begin here", 0, vec![link(3, 0)], 1, Err(9)),
        ("no such link", 0, vec![link(0, 2)], 1, Err(9)),
        ("a link that is down", 0, vec![link(0, 1)], 1, Err(9)),
        ("a link that is down, no hops left", 0, vec![link(0, 1)], 0, Err(8)),
        ("only the first is judged", 3, vec![node(3), link(0, 1)], 1, Ok(Step::To(NodeId(3)))),
        ("a repair before three", 3, vec![node(1), node(2), node(2)], 1, Ok(Step::To(NodeId(3)))),
        ("a repair before four", 3, vec![node(1), node(2), node(2), node(2)], 1, Err(7)),
        ("a repair before four, no hops left", 3, vec![node(1); 4], 0, Err(7)),
        ("five", 3, vec![node(3); 5], 1, Ok(Step::To(NodeId(3)))),
    ];
    for (name, destination, segments, hop_limit, expected) in cases {
        let mut packet = Packet::new(NodeId(destination), &segments).with_hop_limit(hop_limit);
        let step = packet.handle(&network.routers()[0]);
        assert_eq!(step.map_err(|drop| drop.number()), expected, "{name}");
    }
}
