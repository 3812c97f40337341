//! `boxes`: whole networks of `box` processes, one for each node, joined by pipes.
//! In each a link is torn, messages are carried in random order, some of them
//! twice, and packets are sent meanwhile; where these go is held against what a
//! `tear` program prints of the same events.

mod hub;
mod station;
mod tear;

use reference::generate::{self, Costs, Shape};
use reference::random::Random;
use reference::topology::Topology;
use reference::wire;
use std::path::PathBuf;
use std::process::ExitCode;
use std::time::SystemTime;

const HELP: &str = "\
usage: boxes --box PATH --tear PATH [--seed N] [--networks N]

--box       a box program: one process of it is started for each node
--tear      a tear program that plays the same events
--seed      the seed of the random networks (from the clock where none is given)
--networks  how many networks are tried (100)
";

/// No network has more nodes, and so processes, than this.
const MOST_NODES: u8 = 12;

struct Options {
    station: PathBuf,
    tear: PathBuf,
    seed: u64,
    networks: usize,
}

fn main() -> ExitCode {
    let arguments: Vec<String> = std::env::args().skip(1).collect();
    if arguments == ["--help"] {
        print!("{HELP}");
        return ExitCode::SUCCESS;
    }
    match parse(arguments).and_then(|options| try_all(&options)) {
        Ok(true) => ExitCode::SUCCESS,
        Ok(false) => ExitCode::FAILURE,
        Err(why) => {
            eprintln!("boxes: {why}");
            ExitCode::from(2)
        }
    }
}

fn parse(arguments: Vec<String>) -> Result<Options, String> {
    let (mut station, mut tear) = (None, None);
    let since = SystemTime::now().duration_since(SystemTime::UNIX_EPOCH);
    let mut seed = since.map_or(0, |time| time.as_micros() as u64);
    let mut networks = 100;
    let mut words = arguments.into_iter();
    while let Some(word) = words.next() {
        let value = words.next().ok_or(format!("{word} needs a value"))?;
        let number = || value.parse().map_err(|_| format!("{value} is not a number"));
        match word.as_str() {
            "--box" => station = Some(PathBuf::from(&value)),
            "--tear" => tear = Some(PathBuf::from(&value)),
            "--seed" => seed = number()?,
            "--networks" => networks = number()? as usize,
            _ => return Err(format!("unknown option {word}; see --help")),
        }
    }
    let station = station.ok_or("no --box; see --help")?;
    let tear = tear.ok_or("no --tear; see --help")?;
    Ok(Options { station, tear, seed, networks })
}

fn try_all(options: &Options) -> Result<bool, String> {
    println!("boxes: seed {}", options.seed);
    let random = &mut Random::new(options.seed);
    let mut packets = 0;
    for position in 1..=options.networks {
        let topology = small_network(random);
        let played = hub::play(&options.station, &topology, random).map_err(|e| e.to_string())?;
        let printed = tear::packet_lines(&options.tear, &topology, &played.script)
            .map_err(|e| e.to_string())?;
        if let Some(what) = tear::difference(&played.lines, &printed) {
            println!("network {position}: {what}");
            println!("links {:?}\n{}", wire::emit(&topology), played.script);
            return Ok(false);
        }
        packets += played.lines.len();
    }
    println!("boxes: {} networks, {packets} packets, all the same", options.networks);
    Ok(true)
}

fn small_network(random: &mut Random) -> Topology {
    loop {
        let shape = random.pick(&[Shape::Pair, Shape::Ring, Shape::Sparse, Shape::Dense]);
        let topology = generate::network(shape, random.pick(&Costs::ALL), random);
        if topology.node_count() <= MOST_NODES && !topology.links().is_empty() {
            return topology;
        }
    }
}
