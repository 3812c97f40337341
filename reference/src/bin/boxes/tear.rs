//! What a `tear` program prints of the events that the boxes have played.

use reference::topology::Topology;
use reference::wire;
use std::io::{self, Write};
use std::path::Path;
use std::process::{Command, Stdio};

/// What `tear` prints of packets when it plays the script.
pub fn packet_lines(program: &Path, topology: &Topology, script: &str) -> io::Result<Vec<String>> {
    let name = format!("boxes-{}.links", std::process::id());
    let links = std::env::temp_dir().join(name);
    std::fs::write(&links, wire::emit(topology))?;
    let mut child =
        Command::new(program).arg(&links).stdin(Stdio::piped()).stdout(Stdio::piped()).spawn()?;
    child.stdin.take().expect("it is piped").write_all(script.as_bytes())?;
    let output = child.wait_with_output()?;
    std::fs::remove_file(&links)?;
    let text = String::from_utf8_lossy(&output.stdout).into_owned();
    Ok(text.lines().filter(|line| line.starts_with("packet")).map(String::from).collect())
}

/// A box says on its output that a packet is gone, but not why.
pub fn difference(lines: &[String], printed: &[String]) -> Option<String> {
    if lines.len() != printed.len() {
        return Some(format!("{} packets, but tear has {}", lines.len(), printed.len()));
    }
    let same = |(line, printed): &(&String, &String)| {
        line == printed || (line.ends_with("dropped") && printed.starts_with(line.as_str()))
    };
    let apart = lines.iter().zip(printed).find(|pair| !same(pair));
    apart.map(|(line, printed)| format!("{line:?}, but tear has {printed:?}"))
}
