//! What runs are held to, and what came of the cases of a test.

use reference::answer::Run;
use std::fmt;

/// Says what is wrong, if something is.
pub type Check = Result<(), String>;

/// The cases of a test so far.
pub struct Report {
    test: &'static str,
    pub cases: usize,
    pub failed: usize,
}

impl Report {
    pub fn of(test: &'static str) -> Report {
        Report { test, cases: 0, failed: 0 }
    }

    /// Counts a case, and prints what is wrong with it.
    pub fn case(&mut self, name: &str, check: Check) {
        self.cases += 1;
        if let Err(what) = check {
            self.failed += 1;
            println!("{}: {name}: {what}", self.test);
        }
    }
}

impl fmt::Display for Report {
    fn fmt(&self, f: &mut fmt::Formatter<'_>) -> fmt::Result {
        write!(f, "{} of {} cases passed", self.cases - self.failed, self.cases)
    }
}

pub fn status(run: &Run, expected: i32) -> Check {
    match run.status {
        Some(status) if status == expected => Ok(()),
        Some(status) => Err(format!("status {status}, expected {expected}")),
        None => Err(format!("killed or too slow, expected status {expected}")),
    }
}

pub fn output(run: &Run, expected: &[u8]) -> Check {
    let apart = run.stdout.iter().zip(expected).take_while(|(a, b)| a == b).count();
    if run.stdout == expected {
        return Ok(());
    }
    let lengths = format!("{} bytes, expected {}", run.stdout.len(), expected.len());
    Err(format!("standard output has {lengths}, and differs at byte {apart}"))
}

pub fn errors(run: &Run, expected: &str) -> Check {
    match &*String::from_utf8_lossy(&run.stderr) {
        text if text == expected => Ok(()),
        text => Err(format!("standard error is {text:?}, expected {expected:?}")),
    }
}

/// Standard error is a line that begins so, has more behind that, and ends with its
/// line break, and then `rest`.
pub fn one_line(run: &Run, start: &str, rest: &str) -> Check {
    let text = String::from_utf8_lossy(&run.stderr);
    let line = text.strip_suffix(rest).and_then(|text| text.strip_suffix('\n'));
    let right = line.is_some_and(|line| {
        line.starts_with(start) && line.len() > start.len() && !line.contains('\n')
    });
    match (right, rest) {
        (true, _) => Ok(()),
        (_, "") => {
            Err(format!("standard error is {text:?}, expected one line, {start:?} and more"))
        }
        _ => Err(format!(
            "standard error is {text:?}, expected one line, {start:?} and more, and then {rest:?}"
        )),
    }
}
