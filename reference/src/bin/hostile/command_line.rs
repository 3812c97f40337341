//! Command lines: bad ones, and those that ask for help or the version.

use crate::check::{errors, one_line, output, status, Check, Report};
use crate::programs::Programs;
use reference::answer::Run;
use std::io;

/// A program and its words.
type Line = (&'static str, &'static [&'static str]);

const BAD: [Line; 29] = [
    ("lay", &["a", "b"]),
    ("lay", &["--summary", "a", "b"]),
    ("lay", &["--nosuch"]),
    ("lay", &["--nosuch", "ring"]),
    ("lay", &["ring", "--summar\ny"]),
    ("lay", &["ring", "a\nb"]),
    ("lay", &["-x"]),
    ("lay", &["--summary=yes"]),
    ("box", &[]),
    ("box", &["64"]),
    ("box", &["255"]),
    ("box", &["256"]),
    ("box", &["99999999999999999999"]),
    ("box", &["x"]),
    ("box", &[""]),
    ("box", &["-1"]),
    ("box", &["+1"]),
    ("box", &["0x1"]),
    ("box", &["1\n2"]),
    ("box", &["1", "2"]),
    ("box", &["--nosuch"]),
    ("box", &["1", "--nosuch"]),
    ("tear", &[]),
    ("tear", &["a", "b", "c"]),
    ("tear", &["ring", "a", "b\nc"]),
    ("tear", &["--nosuch"]),
    ("tear", &["--nosuch", "ring"]),
    ("tear", &["ring", "--no\nsuch"]),
    ("tear", &["-x", "ring"]),
];

pub fn test_bad(programs: &Programs, report: &mut Report) -> io::Result<()> {
    for (name, words) in BAD {
        let run = programs.call(name, words).run()?;
        let check = one_line(&run, "error: ", &format!("try '{name} --help'\n"));
        let check = status(&run, 2).and(output(&run, b"")).and(check);
        report.case(&format!("{name} {words:?}"), check);
    }
    Ok(())
}

pub fn test_help(programs: &Programs, report: &mut Report) -> io::Result<()> {
    for name in ["lay", "box", "tear"] {
        for (word, says) in
            [("-h", says_usage as Says), ("--help", says_usage), ("--version", says_version)]
        {
            let run = programs.call(name, &[word]).run()?;
            let check = status(&run, 0).and(errors(&run, "")).and(says(&run, name));
            report.case(&format!("{name} {word}"), check);
        }
    }
    Ok(())
}

type Says = fn(&Run, &str) -> Check;

fn says_usage(run: &Run, name: &str) -> Check {
    let text = String::from_utf8_lossy(&run.stdout);
    let usage = format!("usage: {name} ");
    if text.to_lowercase().contains(&usage) && text.ends_with('\n') {
        Ok(())
    } else {
        Err(format!("the help has no {usage:?}: {text:?}"))
    }
}

/// The name, a space, and numbers between points.
fn says_version(run: &Run, name: &str) -> Check {
    let text = String::from_utf8_lossy(&run.stdout);
    let version = text.strip_prefix(&format!("{name} ")).and_then(|rest| rest.strip_suffix('\n'));
    let is_number = |part: &str| !part.is_empty() && part.bytes().all(|byte| byte.is_ascii_digit());
    if version.is_some_and(|version| version.split('.').all(is_number)) {
        Ok(())
    } else {
        Err(format!("standard output is {text:?}, expected \"{name} VERSION\\n\""))
    }
}
