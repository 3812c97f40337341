//! The table of networks and times.

use crate::measure::{Sample, Summary};
use reference::wire;
use std::fs;
use std::path::Path;
use std::time::Duration;

/// What the table says of a network.
pub struct Network {
    name: String,
    nodes: u8,
    links: usize,
}

impl Network {
    pub fn read(file: &str) -> Result<Network, String> {
        let list = fs::read(file).map_err(|error| error.to_string())?;
        let topology = wire::parse(&list).map_err(|fault| fault.to_string())?;
        let name = Path::new(file).file_stem().unwrap_or_default().to_string_lossy().into_owned();
        Ok(Network { name, nodes: topology.node_count(), links: topology.links().len() })
    }
}

pub fn print_heading(names: &[&str], rounds: usize) {
    println!("Milliseconds of one run, start-up included; {rounds} runs of each program, in turn.");
    println!("processor: user and system time of the process. Behind each other program: what part of its");
    println!("time lay takes.");
    println!();
    let programs = names.iter().map(|name| format!("{name:>18}"));
    let titles: Vec<String> = programs.enumerate().map(|(i, title)| title + after(i, "")).collect();
    println!("{:36}{}", "", titles.concat());
    let columns = |i| format!("{:>9}{:>9}{}", "median", "least", after(i, "  ratio"));
    let columns: Vec<String> = (0..names.len()).map(columns).collect();
    println!("{:12}{:>6}{:>7}  {:9}{}", "network", "nodes", "links", "time", columns.concat());
}

/// The column of ratios, which the first program hasn't got.
fn after(program: usize, text: &'static str) -> &'static str {
    match (program, text) {
        (0, _) => "",
        (_, "") => "       ",
        (_, text) => text,
    }
}

pub fn print_row(
    Network { name, nodes, links }: &Network,
    kind: &str,
    samples: &[Vec<Sample>],
    time: fn(&Sample) -> Duration,
) {
    let summaries: Vec<Summary> = samples.iter().map(|runs| Summary::of(runs, time)).collect();
    let mut columns = String::new();
    for (i, summary) in summaries.iter().enumerate() {
        columns += &format!("{:9.2}{:9.2}", summary.median, summary.least);
        if i > 0 {
            columns += &format!("{:7.2}", summaries[0].median / summary.median);
        }
    }
    println!("{name:12}{nodes:6}{links:7}  {kind:9}{columns}");
}
