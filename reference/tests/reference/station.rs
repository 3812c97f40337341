//! One router that takes frames.

use crate::support::topology;
use reference::node::NodeId;
use reference::station::{play, Complaint};
use reference::wire;

fn frame(from: u8, message: &[u8]) -> Vec<u8> {
    let length = (message.len() as u16).to_be_bytes();
    [&[from], &length[..], message].concat()
}

/// The ring of four, at router 3.
fn list() -> Vec<u8> {
    wire::emit(&topology(4, &[(0, 1, 1), (0, 3, 1), (1, 2, 1), (2, 3, 1)]))
}

#[test]
fn frames() {
    let (list, down) = (list(), [3, 0, 1]);
    // A case: name, frames behind the list, what is written, and the fault of the
    // last one, if it has one.
    type Case<'a> = (&'a str, Vec<(u8, &'a [u8])>, &'a [u8], Option<u8>);
    let cases: [Case; 14] = [
        ("a packet goes on", vec![(2, &[2, 1, 0, 9, 0])], &[0, 2, 1, 0, 8, 0], None),
        ("by a segment", vec![(3, &[2, 1, 0, 9, 1, 0, 2])], &[2, 2, 1, 0, 8, 1, 0, 2], None),
        ("it arrives", vec![(0, &[2, 3, 0, 0, 1, 0, 3])], &[3, 2, 3, 0, 0, 0], None),
        ("four segments of a sender", vec![(3, &[2, 1, 0, 9, 4])], &[], Some(2)),
        ("six segments", vec![(2, &[2, 1, 0, 9, 6])], &[], Some(7)),
        ("no hops left", vec![(2, &[2, 1, 0, 0, 0])], &[], Some(8)),
        ("no neighbour", vec![(1, &[9])], &[], Some(4)),
        ("far beyond the list", vec![(64, &[9])], &[], Some(4)),
        ("news", vec![(0, &down)], &[0, 3, 0, 1, 2, 3, 0, 1, 0, 4, 3, 1, 0, 1], None),
        ("a link that isn't there", vec![(0, &[3, 0, 2])], &[], Some(4)),
        ("the higher node first", vec![(0, &[3, 1, 0])], &[], Some(3)),
        ("nobody waits", vec![(2, &[4, 2, 1, 0, 1])], &[], None),
        ("its own number has switched", vec![(3, &[4, 3, 1, 0, 1])], &[], None),
        ("a new list", vec![(3, &list), (2, &[2, 1, 0, 9, 0])], &[0, 2, 1, 0, 8, 0], None),
    ];
    for (name, frames, output, fault) in cases {
        let mut bytes = frame(3, &list);
        frames.iter().for_each(|(from, message)| bytes.extend(frame(*from, message)));
        let written = play(NodeId(3), &bytes);
        let complaint = |number| Complaint { frame: 1 + frames.len(), number };
        let expected: Vec<Complaint> = fault.map(complaint).into_iter().collect();
        assert_eq!(written.output, output, "{name}");
        assert_eq!(written.complaints, expected, "{name}");
    }
}

#[test]
fn before_there_is_a_list() {
    let list = list();
    let cases: [(&str, u8, Vec<u8>, u8); 5] = [
        ("another number", 3, frame(2, &list), 4),
        ("another kind", 3, frame(3, &[3, 0, 1]), 1),
        ("a number that is no node", 4, frame(4, &list), 2),
        ("no message", 3, frame(3, &[]), 1),
        ("a cut frame", 3, vec![3, 0], 1),
    ];
    for (name, node, bytes, number) in cases {
        let complaints = play(NodeId(node), &bytes).complaints;
        assert_eq!(complaints, [Complaint { frame: 1, number }], "{name}");
    }
}
