//! Runs programs.

use reference::answer::Run;
use std::io::{self, Write};
use std::process::{Command, Output, Stdio};

/// Runs a program with the bytes on standard input.
pub fn run_piped(mut command: Command, bytes: &[u8]) -> io::Result<Output> {
    command.stdin(Stdio::piped()).stdout(Stdio::piped()).stderr(Stdio::piped());
    let mut child = command.spawn()?;
    let stdin = child.stdin.take();
    std::thread::scope(|scope| {
        // A program may end before it has read everything, so that a failed
        // write says nothing.
        scope.spawn(move || stdin.map(|mut pipe| pipe.write_all(bytes)));
        child.wait_with_output()
    })
}

pub fn as_run(output: Output) -> Run {
    Run { status: output.status.code(), stdout: output.stdout, stderr: output.stderr }
}
