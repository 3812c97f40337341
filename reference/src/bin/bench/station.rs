//! The processor time of a `box` program on a stream of packets.

use crate::measure::{check_same_output, measure, Input, Sample, Summary};
use crate::Options;
use std::fs;
use std::io;
use std::path::Path;
use std::process::Command;

/// The first byte of the frames is the router's own node.
pub fn bench(options: &Options, program: &str, stream: &str) -> Result<(), String> {
    let of_stream = |error: io::Error| format!("{stream}: {error}");
    let frames = fs::read(stream).map_err(of_stream)?;
    let node = frames.first().ok_or(format!("{stream}: no frames"))?.to_string();
    let packets = count_frames(&frames).saturating_sub(1);
    let commands = || {
        let mut proved = Command::new(program);
        proved.arg(&node);
        let mut reference = Command::new(&options.reference);
        reference.arg("box").arg(&node);
        vec![proved, reference]
    };
    let input = Input::File(Path::new(stream));
    check_same_output(commands(), input).map_err(|why| format!("{stream}: {why}"))?;
    let rounds = options.rounds.div_ceil(10);
    let samples = measure(commands(), input, rounds).map_err(of_stream)?;
    let median = |runs: &Vec<Sample>| Summary::of(runs, |run| run.processor).median;
    let (proved, reference) = (median(&samples[0]), median(&samples[1]));
    let millions = |milliseconds: f64| packets as f64 / milliseconds / 1e3;
    println!();
    println!("box on {packets} packets, {rounds} runs of each: processor time, median");
    println!("box       {proved:9.2} ms {:9.2} million packets a second", millions(proved));
    println!("reference {reference:9.2} ms {:9.2} million packets a second", millions(reference));
    println!("ratio     {:9.2}", proved / reference);
    Ok(())
}

/// A frame is its sender (1), a length (2) and a message.
fn count_frames(mut bytes: &[u8]) -> usize {
    let mut count = 0;
    while let Some((&[_, high, low], rest)) = bytes.split_first_chunk() {
        bytes = rest.get(usize::from(u16::from_be_bytes([high, low]))..).unwrap_or_default();
        count += 1;
    }
    count
}
