//! `hostile`: runs `lay`, `box` and `tear` programs where their surroundings are
//! hostile: outputs that can't be written, little memory, inputs without end, odd
//! names of files, bad command lines and small stacks.

mod check;
mod command_line;
mod dead_log;
mod endless;
mod file_names;
mod frames;
mod no_neighbour;
mod programs;
mod short_memory;
mod small_stack;

use check::Report;
use programs::Programs;
use std::io;
use std::path::PathBuf;
use std::process::ExitCode;

const HELP: &str = "\
usage: hostile --lay PATH --box PATH --tear PATH [--only TEST]

--lay   a lay program
--box   a box program
--tear  a tear program
--only  the one test to be run

The tests:
";

/// A test is a name, what it holds the programs to, and its cases.
struct Test {
    name: &'static str,
    about: &'static str,
    run: fn(&Programs, &mut Report) -> io::Result<()>,
}

const TESTS: [Test; 8] = [
    Test {
        name: "dead-log",
        about: "what goes out goes out once, where standard error can't be written",
        run: dead_log::test,
    },
    Test {
        name: "short-memory",
        about: "box writes whole messages, wherever memory ends",
        run: short_memory::test,
    },
    Test {
        name: "endless",
        about: "a list of links is read no further than a list can go",
        run: endless::test,
    },
    Test {
        name: "no-neighbour",
        about: "a frame from a node that is no neighbour is refused as that",
        run: no_neighbour::test,
    },
    Test {
        name: "file-names",
        about: "an error is one line that names the file and the cause",
        run: file_names::test,
    },
    Test {
        name: "bad-command-lines",
        about: "status 2, clap's first line, and where help is",
        run: command_line::test_bad,
    },
    Test {
        name: "help",
        about: "-h, --help and --version print, and end with status 0",
        run: command_line::test_help,
    },
    Test {
        name: "small-stack",
        about: "a stack of 512 KiB changes nothing",
        run: small_stack::test,
    },
];

struct Options {
    lay: PathBuf,
    station: PathBuf,
    tear: PathBuf,
    tests: Vec<&'static Test>,
}

fn main() -> ExitCode {
    let arguments: Vec<String> = std::env::args().skip(1).collect();
    if arguments == ["--help"] {
        print!("{HELP}");
        TESTS.iter().for_each(|test| println!("  {:<18} {}", test.name, test.about));
        return ExitCode::SUCCESS;
    }
    match parse(arguments).and_then(try_all) {
        Ok(true) => ExitCode::SUCCESS,
        Ok(false) => ExitCode::FAILURE,
        Err(why) => {
            eprintln!("hostile: {why}");
            ExitCode::from(2)
        }
    }
}

fn parse(arguments: Vec<String>) -> Result<Options, String> {
    let (mut lay, mut station, mut tear) = (None, None, None);
    let mut tests: Vec<&Test> = TESTS.iter().collect();
    let mut words = arguments.into_iter();
    while let Some(word) = words.next() {
        let value = words.next().ok_or(format!("{word} needs a value"))?;
        match word.as_str() {
            "--lay" => lay = Some(PathBuf::from(value)),
            "--box" => station = Some(PathBuf::from(value)),
            "--tear" => tear = Some(PathBuf::from(value)),
            "--only" => tests = vec![test_named(&value)?],
            _ => return Err(format!("unknown option {word}; see --help")),
        }
    }
    let lay = lay.ok_or("no --lay; see --help")?;
    let station = station.ok_or("no --box; see --help")?;
    let tear = tear.ok_or("no --tear; see --help")?;
    Ok(Options { lay, station, tear, tests })
}

fn test_named(name: &str) -> Result<&'static Test, String> {
    let test = TESTS.iter().find(|test| test.name == name);
    test.ok_or(format!("no test is named {name}; see --help"))
}

/// Whether every case of every test passes. A case that fails is a line.
fn try_all(options: Options) -> Result<bool, String> {
    let Options { lay, station, tear, tests } = options;
    let programs = Programs::new(lay, station, tear).map_err(|error| error.to_string())?;
    let (mut cases, mut failed) = (0, 0);
    for test in tests {
        let mut report = Report::of(test.name);
        (test.run)(&programs, &mut report).map_err(|error| format!("{}: {error}", test.name))?;
        println!("{}: {report}", test.name);
        cases += report.cases;
        failed += report.failed;
    }
    match failed {
        0 => println!("hostile: {cases} cases, all passed"),
        _ => println!("hostile: {cases} cases, {failed} failed"),
    }
    Ok(failed == 0)
}
