//! `reference`: writes what the proved `lay`, `box` and `tear` write, and makes
//! networks.

use reference::lay::{lay, Form};
use reference::node::{NodeId, MAX_NODES};
use reference::script::BadLine;
use reference::tear::tear;
use reference::{generate, station, streams, wire};
use std::fmt::Display;
use std::io::{self, Read, Write};
use std::ops::RangeInclusive;
use std::process::ExitCode;
use std::str::FromStr;

const HELP: &str = "\
usage: reference lay [--summary | --quick] [FILE]
       reference box NODE
       reference tear LINKS [SCRIPT]
       reference dense NODES
       reference sparse NODES LINKS
       reference packets LINKS NODE COUNT

lay     reads a list of links in bytes (standard input where no file is named)
        and prints distances, next-hop tables and repairs; with --summary, what
        the failures of single links mean; with --quick, the same as without, for
        which only what a failed link touches is worked out anew
box     is the router at NODE: reads frames from standard input, and writes what
        it hands on and says
tear    reads a list of links in bytes and plays the network by a script
        (standard input where none is named); its lines:
            close A B            the link fails
            words                the messages under way
            deliver K | all      message K arrives, or all do
            again K              message K arrives and stays under way
            over U D | all       router U switches for D, or all that may do
            send S D [SEGMENT..] a packet goes from S to D; a segment is X or A-B
            put S D [SEGMENT..]  a packet waits at S
            hop P | run P        packet P is handled once, or to its end
            state                what each router knows
dense   writes in bytes the list of all links between NODES nodes
sparse  writes in bytes a list of LINKS links between NODES nodes: a ring, and
        chords across it
packets writes frames for the box at NODE: the list of links, and COUNT packets of
        its own sender to all nodes in turn, without and with segments
";

/// Why the program ends without its answer.
enum Failure {
    /// The list of links is refused.
    Refused(reference::fault::Fault),
    /// A line of a script can't be played.
    Line(BadLine),
    /// The arguments, a file or the output; a line that says why.
    Other(String),
}

fn main() -> ExitCode {
    let arguments: Vec<String> = std::env::args().skip(1).collect();
    match run(&arguments) {
        Ok(()) => ExitCode::SUCCESS,
        Err(Failure::Refused(fault)) => {
            eprintln!("{fault}");
            ExitCode::from(1)
        }
        Err(Failure::Line(bad)) => {
            eprintln!("{bad}");
            ExitCode::from(1)
        }
        Err(Failure::Other(why)) => {
            eprintln!("reference: {why}");
            ExitCode::from(2)
        }
    }
}

fn run(arguments: &[String]) -> Result<(), Failure> {
    let words: Vec<&str> = arguments.iter().map(String::as_str).collect();
    match words[..] {
        ["--help"] => write(HELP.as_bytes()),
        ["lay", ref rest @ ..] => run_lay(rest),
        ["box", node] => run_box(node),
        ["tear", links] => run_tear(links, None),
        ["tear", links, script] => run_tear(links, Some(script)),
        ["dense", nodes] => run_dense(nodes),
        ["sparse", nodes, links] => run_sparse(nodes, links),
        ["packets", links, node, count] => run_packets(links, node, count),
        _ => Err(Failure::Other("unknown arguments; see --help".into())),
    }
}

fn run_lay(words: &[&str]) -> Result<(), Failure> {
    let mut form = Form::Plan;
    let mut file = None;
    for &word in words {
        match word {
            "--summary" => form = Form::Summary,
            "--quick" => form = Form::QuickPlan,
            _ if word.starts_with('-') => {
                return Err(Failure::Other(format!("unknown option {word}")));
            }
            _ if file.is_none() => file = Some(word),
            _ => return Err(Failure::Other("more than one file".into())),
        }
    }
    let list = read(file)?;
    let text = lay(&list, form).map_err(Failure::Refused)?;
    write(&text)
}

fn run_box(node: &str) -> Result<(), Failure> {
    let node = NodeId(number(node, 0..=u8::MAX)?);
    let written = station::play(node, &read(None)?);
    for complaint in &written.complaints {
        eprintln!("{complaint}");
    }
    write(&written.output)
}

fn run_tear(links: &str, script: Option<&str>) -> Result<(), Failure> {
    let topology = wire::parse(&read(Some(links))?).map_err(Failure::Refused)?;
    let played = tear(topology, &read(script)?);
    write(played.text.as_bytes())?;
    played.end.map_err(Failure::Line)
}

fn run_dense(nodes: &str) -> Result<(), Failure> {
    let nodes = number(nodes, 1..=MAX_NODES)?;
    write(&wire::emit(&generate::full(nodes)))
}

/// A ring has three nodes or more, and a link for each.
fn run_sparse(nodes: &str, links: &str) -> Result<(), Failure> {
    let nodes = number(nodes, 3..=MAX_NODES)?;
    let ring = u16::from(nodes);
    let links = number(links, ring..=ring * (ring - 1) / 2)?;
    write(&wire::emit(&generate::sparse(nodes, links)))
}

fn run_packets(links: &str, node: &str, count: &str) -> Result<(), Failure> {
    let list = read(Some(links))?;
    let topology = wire::parse(&list).map_err(Failure::Refused)?;
    let nodes = topology.node_count();
    let node = NodeId(number(node, 0..=nodes - 1)?);
    let count: u32 = number(count, 0..=u32::MAX)?;
    write(&streams::packets(&list, nodes, node, count))
}

fn number<T>(word: &str, range: RangeInclusive<T>) -> Result<T, Failure>
where
    T: FromStr + PartialOrd + Display,
{
    let (least, most) = (range.start(), range.end());
    let lawful = word.parse().ok().filter(|number| range.contains(number));
    lawful.ok_or_else(|| Failure::Other(format!("{word} is not a number from {least} to {most}")))
}

fn read(file: Option<&str>) -> Result<Vec<u8>, Failure> {
    let list = match file {
        Some(path) => std::fs::read(path),
        None => {
            let mut list = Vec::new();
            io::stdin().read_to_end(&mut list).map(|_| list)
        }
    };
    let name = file.unwrap_or("standard input");
    list.map_err(|error| Failure::Other(format!("{name}: {error}")))
}

fn write(bytes: &[u8]) -> Result<(), Failure> {
    let mut output = io::stdout().lock();
    let written = output.write_all(bytes).and_then(|()| output.flush());
    written.map_err(|error| Failure::Other(format!("standard output: {error}")))
}
