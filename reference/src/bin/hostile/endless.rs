//! Inputs without end: a list of links is read no further than a list can go.

use crate::check::{one_line, output, status, Check, Report};
use crate::programs::{Call, Input, Programs, RING};
use reference::generate;
use reference::node::MAX_NODES;
use reference::wire::{self, PIECE};
use std::fs::File;
use std::io;

/// So that a program which reads on fails before the machine does.
const LIMIT: &str = "ulimit -v 200000";

/// What a program may take: what is left in a pipe, and one large read.
const MOST_TAKEN: usize = 2 * 65536;

/// The links between 64 nodes.
const MOST_LINKS: u16 = 2016;

/// The length of a file that no program could keep.
const LONG: u64 = 1 << 36;

pub fn test(programs: &Programs, report: &mut Report) -> io::Result<()> {
    let calls = [
        ("lay", programs.call("lay", &[])),
        ("lay FILE", programs.call("lay", &["/dev/stdin"])),
        ("tear LINKS", programs.call("tear", &["/dev/stdin"])),
    ];
    let full = wire::emit(&generate::full(MAX_NODES));
    let more = with_count(&full, MOST_LINKS + 1);
    let most = with_count(&full, u16::MAX);
    let last = &full[full.len() - PIECE..];
    // A case: name, head, tail, and the beginning of the refusal.
    let cases: [(&str, &[u8], &[u8], &str); 9] = [
        ("zeros", &[], &[0], "fault 1: at byte 0: "),
        ("lines", &[], b"y\n", "fault 1: at byte 0: "),
        ("a header", &[], &[1, 0], "fault 2: at byte 0: "),
        ("the same link", &[1, 64, 255, 255], &[0, 1, 0, 1], "fault 3: at byte 8: "),
        ("the ring, zeros", RING, &[0], "fault 1: at byte 20: "),
        ("the longest list, zeros", &full, &[0], "fault 1: at byte 8068: "),
        ("the longest list, a link", &full, last, "fault 1: at byte 8068: "),
        ("a link more, zeros", &more, &[0], "fault 2: at byte 8068: "),
        ("links without end", &most, last, "fault 3: at byte 8068: "),
    ];
    for (name, head, tail, start) in cases {
        for (words, call) in calls {
            let check = refused(call.reading(Input::Endless { head, tail }), LIMIT, start)?;
            report.case(&format!("{words}: {name}"), check);
        }
    }
    File::create(programs.path("long"))?.set_len(LONG)?;
    for file in ["/dev/zero", "long"] {
        for name in ["lay", "tear"] {
            let check = refused(programs.call(name, &[file]), LIMIT, "fault 1: at byte 0: ")?;
            report.case(&format!("{name} {file}"), check);
        }
        let code = format!("{LIMIT} && exec <{file}");
        let check = refused(programs.call("lay", &[]), &code, "fault 1: at byte 0: ")?;
        report.case(&format!("lay <{file}"), check);
    }
    Ok(())
}

fn refused(call: Call, surroundings: &str, start: &str) -> io::Result<Check> {
    let (run, taken) = call.after(surroundings).run_counting()?;
    let check = status(&run, 1).and(output(&run, b"")).and(one_line(&run, start, ""));
    Ok(check.and(if taken <= MOST_TAKEN { Ok(()) } else { Err(format!("{taken} bytes taken")) }))
}

/// The list with another number of links in its header.
fn with_count(list: &[u8], count: u16) -> Vec<u8> {
    [&list[..2], &count.to_be_bytes(), &list[PIECE..]].concat()
}
