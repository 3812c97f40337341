//! Compares a `box` program with the reference: what it writes of streams of frames.

use crate::run::{as_run, run_piped};
use crate::scratch::Scratch;
use crate::Options;
use reference::answer::box_difference;
use reference::random::Random;
use reference::{station, streams};
use std::collections::BTreeMap;
use std::io;
use std::path::Path;
use std::process::Command;

/// Whether all answers are the same.
pub fn compare(program: &Path, options: &Options, scratch: &mut Scratch) -> io::Result<bool> {
    let streams = streams::all(options.streams, &mut Random::new(options.seed));
    let mut faults: BTreeMap<u8, usize> = BTreeMap::new();
    let mut written = 0;
    for (position, stream) in streams.iter().enumerate() {
        let expected = station::play(stream.node, &stream.bytes);
        let mut command = Command::new(program);
        command.arg(stream.node.to_string());
        let run = as_run(run_piped(command, &stream.bytes)?);
        if let Some(what) = box_difference(&expected, &run) {
            println!("stream {}: {}, as box {}", position + 1, stream.name, stream.node);
            println!("{what}");
            scratch.keep_stream(&stream.bytes, &expected, &run)?;
            return Ok(false);
        }
        written += expected.output.len();
        for complaint in &expected.complaints {
            *faults.entry(complaint.number).or_default() += 1;
        }
    }
    let counts: Vec<String> =
        faults.iter().map(|(number, count)| format!("fault {number} {count}")).collect();
    println!("frames: {written} bytes written, {}", counts.join(", "));
    println!("compare: {} streams, all the same", streams.len());
    Ok(true)
}
