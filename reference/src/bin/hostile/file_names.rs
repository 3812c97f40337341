//! An error is one line that names the file and the cause, whatever the file's name is.

use crate::check::{one_line, output, status, Report};
use crate::programs::{Input, Programs, RING};
use std::io;

const NO_FILE: &str = "No such file or directory";
const FOLDER: &str = "Is a directory";
const NO_SPACE: &str = "No space left on device";

/// A program, its words, the beginning of the line, and the cause that is in it.
const UNREADABLE: [(&str, &[&str], &str, &str); 13] = [
    ("lay", &["nosuch"], "nosuch: ", NO_FILE),
    ("lay", &["--summary", "nosuch"], "nosuch: ", NO_FILE),
    ("lay", &["no/such/file"], "no/such/file: ", NO_FILE),
    ("lay", &["."], ".: ", FOLDER),
    ("lay", &["no\nsuch"], "no\\nsuch: ", NO_FILE),
    ("lay", &["\n"], "\\n: ", NO_FILE),
    ("tear", &["nosuch"], "nosuch: ", NO_FILE),
    ("tear", &["."], ".: ", FOLDER),
    ("tear", &["no\nsuch"], "no\\nsuch: ", NO_FILE),
    ("tear", &["nosuch", "neither"], "nosuch: ", NO_FILE),
    ("tear", &["ring", "nosuch"], "nosuch: ", NO_FILE),
    ("tear", &["ring", "."], ".: ", FOLDER),
    ("tear", &["ring", "no\nsuch"], "no\\nsuch: ", NO_FILE),
];

/// A program, its words, and what is on its standard input.
const UNWRITABLE: [(&str, &[&str], &[u8]); 3] =
    [("lay", &["ring"], b""), ("tear", &["ring"], b"close 0 1\nstate\n"), ("box", &["3"], b"")];

pub fn test(programs: &Programs, report: &mut Report) -> io::Result<()> {
    for (name, words, start, cause) in UNREADABLE {
        let run = programs.call(name, words).run()?;
        let line = one_line(&run, start, "");
        let check = status(&run, 1).and(output(&run, b"")).and(line).and(has(&run.stderr, cause));
        report.case(&format!("{name} {words:?}"), check);
    }
    let arriving = [&[3, 0, 20], RING, &[3, 0, 5, 2, 3, 0, 1, 0]].concat();
    for (name, words, input) in UNWRITABLE {
        let input = if name == "box" { &arriving } else { input };
        let call = programs.call(name, words).after("exec >/dev/full");
        let run = call.reading(Input::Bytes(input)).run()?;
        let check = status(&run, 1).and(one_line(&run, "", "")).and(has(&run.stderr, NO_SPACE));
        report.case(&format!("{name} {words:?} >/dev/full"), check);
    }
    Ok(())
}

fn has(text: &[u8], cause: &str) -> Result<(), String> {
    let text = String::from_utf8_lossy(text);
    if text.contains(cause) {
        Ok(())
    } else {
        Err(format!("standard error is {text:?}, without {cause:?}"))
    }
}
