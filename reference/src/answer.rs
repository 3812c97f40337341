//! What a `lay`, `box` or `tear` program did with an input, held against what it
//! should do.

use crate::fault::Fault;
use crate::station::Written;
use crate::tear::Played;

/// What a program should print, or why it should refuse its input.
pub type Answer = Result<Vec<u8>, Fault>;

/// A run of a program: what it wrote, and its exit status where it has one.
#[derive(Clone, Debug)]
pub struct Run {
    pub status: Option<i32>,
    pub stdout: Vec<u8>,
    pub stderr: Vec<u8>,
}

/// The first thing that is wrong with the run, in words.
pub fn difference(expected: &Answer, run: &Run) -> Option<String> {
    match expected {
        Ok(text) => difference_accepted(text, run),
        Err(fault) => difference_refused(fault, run),
    }
}

/// As [`difference`], of a script that is played.
pub fn tear_difference(expected: &Result<Played, Fault>, run: &Run) -> Option<String> {
    match expected {
        Err(fault) => difference_refused(fault, run),
        Ok(Played { text, end: Ok(()) }) => difference_accepted(text.as_bytes(), run),
        Ok(Played { text, end: Err(bad) }) => difference_stopped(text, bad.number, run),
    }
}

/// As [`difference`], of frames that a router takes: the bytes that it writes, and
/// which fault each refused frame has.
pub fn box_difference(expected: &Written, run: &Run) -> Option<String> {
    if run.status != Some(0) {
        return Some(format!("status {}, expected 0", status_text(run)));
    }
    if let Some(position) = first_byte_apart(&expected.output, &run.stdout) {
        return Some(format!("standard output differs at byte {position}"));
    }
    let text = String::from_utf8_lossy(&run.stderr);
    let mut lines = text.split_inclusive('\n');
    for complaint in &expected.complaints {
        let start = format!("frame {}: fault {}: ", complaint.frame, complaint.number);
        let right = |line: &str| line.starts_with(&start) && line.ends_with('\n');
        match lines.next() {
            Some(line) if right(line) => {}
            line => return Some(format!("no line that begins `{start}`, but {line:?}")),
        }
    }
    lines.next().map(|line| format!("one more line on standard error, {line:?}"))
}

fn first_byte_apart(expected: &[u8], found: &[u8]) -> Option<usize> {
    let same = expected.iter().zip(found).take_while(|(a, b)| a == b).count();
    (same < expected.len().max(found.len())).then_some(same)
}

/// What was printed before a bad line stays printed.
fn difference_stopped(text: &str, line: usize, run: &Run) -> Option<String> {
    if run.status != Some(1) {
        return Some(format!("status {}, expected 1 (line {line})", status_text(run)));
    }
    first_line_apart(text.as_bytes(), &run.stdout)
        .or_else(|| difference_of_complaint(&format!("line {line}: "), run))
}

fn difference_accepted(text: &[u8], run: &Run) -> Option<String> {
    if run.status != Some(0) {
        return Some(format!("status {}, expected 0", status_text(run)));
    }
    if !run.stderr.is_empty() {
        return Some("a lawful list, but something is on standard error".into());
    }
    first_line_apart(text, &run.stdout)
}

fn difference_refused(fault: &Fault, run: &Run) -> Option<String> {
    let number = fault.number();
    if run.status != Some(1) {
        return Some(format!("status {}, expected 1 (fault {number})", status_text(run)));
    }
    if !run.stdout.is_empty() {
        return Some(format!("fault {number}, but something is on standard output"));
    }
    difference_of_complaint(&format!("fault {number}: "), run)
}

/// Standard error is to be one line with this beginning.
fn difference_of_complaint(start: &str, run: &Run) -> Option<String> {
    let one_line = run.stderr.iter().filter(|&&byte| byte == b'\n').count() == 1
        && run.stderr.ends_with(b"\n");
    let right = one_line && run.stderr.starts_with(start.as_bytes());
    (!right).then(|| format!("standard error is not one line beginning `{start}`"))
}

fn status_text(run: &Run) -> String {
    run.status.map_or("none (killed)".into(), |status| status.to_string())
}

/// The first line in which two texts differ.
fn first_line_apart(expected: &[u8], found: &[u8]) -> Option<String> {
    if expected == found {
        return None;
    }
    let mut expected = expected.split_inclusive(|&byte| byte == b'\n');
    let mut found = found.split_inclusive(|&byte| byte == b'\n');
    let mut line = 1;
    loop {
        let pair = (expected.next(), found.next());
        if pair.0 != pair.1 {
            let [expected, found] = [pair.0, pair.1].map(line_text);
            return Some(format!("line {line}: expected {expected}, found {found}"));
        }
        line += 1;
    }
}

fn line_text(line: Option<&[u8]>) -> String {
    line.map_or("the end".into(), |bytes| format!("{:?}", String::from_utf8_lossy(bytes)))
}
