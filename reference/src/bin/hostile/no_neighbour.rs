//! A frame from a node that is no neighbour is refused as that, and not as a link.

use crate::check::{errors, status, Report};
use crate::frames::{frame, link_down, packet_to};
use crate::programs::{Input, Programs, RING};
use std::io;

const NO_NEIGHBOUR: &str = "fault 4: a frame from a node that is no neighbour";
const NO_LINK: &str = "fault 4: a link that is not in the list";

/// At node 0 of the ring: name, the node that a frame comes from, its message, and why
/// it is refused.
const CASES: [(&str, u8, &[u8], &str); 7] = [
    ("across the ring", 2, &[2, 1, 255, 254, 0], NO_NEIGHBOUR),
    ("the first that is no node", 4, &[2, 1, 255, 254, 0], NO_NEIGHBOUR),
    ("the last number", 255, &[2, 1, 255, 254, 0], NO_NEIGHBOUR),
    ("nothing in it", 2, &[], NO_NEIGHBOUR),
    ("a LinkDown", 2, &[3, 2, 3], NO_NEIGHBOUR),
    ("a LinkDown of no link", 2, &[3, 0, 2], NO_NEIGHBOUR),
    ("a neighbour's LinkDown of no link", 1, &[3, 0, 2], NO_LINK),
];

/// At a node 0 that has no list yet: name, the node that the first frame comes from,
/// and its message.
const BEFORE_A_LIST: [(&str, u8, &[u8]); 4] = [
    ("first, a neighbour's list", 1, RING),
    ("first, a neighbour's packet", 1, &[2, 1, 255, 254, 0]),
    ("first, a list of a node across the ring", 2, RING),
    ("first, nothing, from the last number", 255, &[]),
];

pub fn test(programs: &Programs, report: &mut Report) -> io::Result<()> {
    for (name, from, message, refusal) in CASES {
        let frames = [frame(0, RING), frame(from, message)].concat();
        let run = programs.call("box", &["0"]).reading(Input::Bytes(&frames)).run()?;
        let check = status(&run, 0).and(errors(&run, &format!("frame 2: {refusal}\n")));
        report.case(name, check);
    }
    for (name, from, message) in BEFORE_A_LIST {
        let frames = frame(from, message);
        let run = programs.call("box", &["0"]).reading(Input::Bytes(&frames)).run()?;
        let check = status(&run, 0).and(errors(&run, &format!("frame 1: {NO_NEIGHBOUR}\n")));
        report.case(name, check);
    }
    let frames = [
        frame(1, RING),
        frame(0, RING),
        frame(2, &packet_to(1)),
        frame(0, &link_down(0, 2)),
        frame(64, &packet_to(1)),
    ];
    let run = programs.call("box", &["0"]).reading(Input::Bytes(&frames.concat())).run()?;
    let lines = [(1, NO_NEIGHBOUR), (3, NO_NEIGHBOUR), (4, NO_LINK), (5, NO_NEIGHBOUR)]
        .map(|(frame, refusal)| format!("frame {frame}: {refusal}\n"));
    report.case("one after the other", status(&run, 0).and(errors(&run, &lines.concat())));
    Ok(())
}
