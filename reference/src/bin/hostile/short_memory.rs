//! Memory ends, wherever that is: what `box` has written is a whole number of messages.

use crate::check::{output, Check, Report};
use crate::frames::{cut_at_end, frame, link_down, packet_to};
use crate::programs::{Programs, RING};
use reference::answer::Run;
use reference::messages::SWITCHED;
use reference::node::NodeId;
use reference::station;
use std::ops::RangeInclusive;
use std::{fs, io};

/// The limits on memory that are tried, in KiB: from too little to start with to enough.
const LIMITS: RangeInclusive<usize> = 1024..=16384;
const STEP: usize = 64;

/// A vector that grows by doubling is full at such a number of bytes.
const FULL: [usize; 10] = [128, 256, 512, 1024, 2048, 4096, 8192, 16384, 32768, 65536];

/// What begins where a vector has room for one byte more, and how far it stands behind
/// the packets that are sent before.
const LAST: [(&str, usize); 4] =
    [("LinkDown", 0), ("a second LinkDown", 4), ("Switched", 8), ("a packet", ROUND)];

/// The bytes of a LinkDown to each neighbour, of a Switched, and of another LinkDown.
const ROUND: usize = 4 + 4 + 6 + 4;

pub fn test(programs: &Programs, report: &mut Report) -> io::Result<()> {
    for (name, distance) in LAST {
        let frames = frames(distance);
        fs::write(programs.path("frames"), &frames)?;
        let expected = station::play(NodeId(0), &frames).output;
        report.case(&format!("{name}: every limit"), every_limit(programs)?);
        let enough = output(&under(programs, *LIMITS.end())?, &expected);
        report.case(&format!("{name}: the last limit is enough"), enough);
    }
    Ok(())
}

fn every_limit(programs: &Programs) -> io::Result<Check> {
    for limit in LIMITS.step_by(STEP) {
        let written = under(programs, limit)?.stdout;
        let cut = cut_at_end(&written);
        if cut > 0 {
            let size = written.len();
            return Ok(Err(format!("{limit} KiB: {size} bytes, the last {cut} no whole message")));
        }
    }
    Ok(Ok(()))
}

fn under(programs: &Programs, limit: usize) -> io::Result<Run> {
    programs.call("box", &["0"]).after(&format!("ulimit -v {limit} && exec <frames")).run()
}

/// Frames for node 0 of the ring, again and again: its link 0-1 fails, packets go on
/// (6 bytes each) or are repaired (11 bytes), and then, with the list anew, the link 1-2
/// fails far away.
fn frames(distance: usize) -> Vec<u8> {
    let list = frame(0, RING);
    let mut frames = list.clone();
    let mut given = 4;
    for full in FULL {
        let (short, long) = messages_of(full - 1 - distance - given);
        frames.extend(frame(0, &link_down(0, 1)));
        frames.extend(frame(0, &packet_to(3)).repeat(short));
        frames.extend(frame(3, &packet_to(1)).repeat(long));
        frames.extend(frame(3, &[SWITCHED, 3, 1, 0, 1]));
        frames.extend(&list);
        frames.extend(frame(0, &link_down(1, 2)));
        frames.extend(&list);
        given = full - 1 - distance + ROUND;
    }
    frames.extend(frame(0, &link_down(0, 1)));
    frames.extend(frame(3, &packet_to(1)));
    frames
}

/// How many messages of 6 and of 11 bytes make so many bytes, from 60 on.
fn messages_of(bytes: usize) -> (usize, usize) {
    let pairs = (0..11).map(|short| (short, (bytes - 6 * short) / 11));
    let mut exact = pairs.filter(|(short, long)| 6 * short + 11 * long == bytes);
    exact.next().expect("one of eleven sums is")
}
