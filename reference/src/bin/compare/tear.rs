//! Compares a `tear` program with the reference: what it prints of scripts.

use crate::run::{as_run, run_piped};
use crate::scratch::Scratch;
use crate::Options;
use reference::answer::{tear_difference, Run};
use reference::random::Random;
use reference::scripts::{self, Script};
use reference::tear::{tear, Played};
use reference::wire;
use std::io;
use std::path::Path;
use std::process::{Command, Stdio};

/// Whether all answers are the same. Every second script is on standard input.
pub fn compare(program: &Path, options: &Options, scratch: &mut Scratch) -> io::Result<bool> {
    let scripts = scripts::all(options.scripts, &mut Random::new(options.seed));
    let mut stopped = 0;
    for (position, script) in scripts.iter().enumerate() {
        let expected = wire::parse(&script.links).map(|links| tear(links, &script.text));
        let piped = position % 2 == 1;
        let run = run_tear(program, script, piped, scratch)?;
        if let Some(what) = tear_difference(&expected, &run) {
            let call = if piped { "tear LINKS < SCRIPT" } else { "tear LINKS SCRIPT" };
            println!("script {}: {}, as {call}", position + 1, script.name);
            println!("{what}");
            scratch.keep_script(&expected, &run)?;
            return Ok(false);
        }
        stopped += usize::from(!matches!(expected, Ok(Played { end: Ok(()), .. })));
    }
    println!("scripts: played {}, stopped {stopped}", scripts.len() - stopped);
    println!("compare: {} scripts, all the same", scripts.len());
    Ok(true)
}

fn run_tear(program: &Path, script: &Script, piped: bool, scratch: &Scratch) -> io::Result<Run> {
    let links = scratch.write("tear.links", &script.links)?;
    let file = scratch.write("tear.script", &script.text)?;
    let mut command = Command::new(program);
    command.arg(links);
    let output = if piped {
        run_piped(command, &script.text)?
    } else {
        command.arg(file).stdin(Stdio::null()).output()?
    };
    Ok(as_run(output))
}
