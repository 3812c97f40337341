//! `compare`: runs a `lay`, a `box` or a `tear` program on many inputs and holds each
//! answer against the reference.

mod lay;
mod run;
mod scratch;
mod station;
mod tear;

use scratch::Scratch;
use std::io;
use std::path::{Path, PathBuf};
use std::process::ExitCode;
use std::time::SystemTime;

const HELP: &str = "\
usage: compare [--lay PATH] [--box PATH] [--tear PATH] [--seed N] [--networks N]
               [--streams N] [--scripts N]

--lay       a lay program to be compared with the reference
--box       a box program to be compared with the reference
--tear      a tear program to be compared with the reference
--seed      the seed of the random inputs (from the clock where none is given)
--networks  the number of random lawful networks for lay (300)
--streams   the number of random streams of frames for box (600)
--scripts   the number of random scripts for tear (300)

The plans of all inputs are compared, and the summaries of some.
";

struct Options {
    lay: Option<PathBuf>,
    station: Option<PathBuf>,
    tear: Option<PathBuf>,
    seed: u64,
    networks: usize,
    streams: usize,
    scripts: usize,
}

fn main() -> ExitCode {
    let arguments: Vec<String> = std::env::args().skip(1).collect();
    if arguments == ["--help"] {
        print!("{HELP}");
        return ExitCode::SUCCESS;
    }
    match parse(arguments).and_then(|options| compare(&options)) {
        Ok(code) => code,
        Err(why) => {
            eprintln!("compare: {why}");
            ExitCode::from(2)
        }
    }
}

fn parse(arguments: Vec<String>) -> Result<Options, String> {
    let mut options = Options {
        lay: None,
        station: None,
        tear: None,
        seed: clock_seed(),
        networks: 300,
        streams: 600,
        scripts: 300,
    };
    let mut words = arguments.into_iter();
    while let Some(word) = words.next() {
        let mut value = || words.next().ok_or(format!("{word} needs a value"));
        match word.as_str() {
            "--lay" => options.lay = Some(PathBuf::from(value()?)),
            "--box" => options.station = Some(PathBuf::from(value()?)),
            "--tear" => options.tear = Some(PathBuf::from(value()?)),
            "--seed" => options.seed = number(&value()?)?,
            "--networks" => options.networks = number(&value()?)? as usize,
            "--streams" => options.streams = number(&value()?)? as usize,
            "--scripts" => options.scripts = number(&value()?)? as usize,
            _ => return Err(format!("unknown argument {word}; see --help")),
        }
    }
    if options.lay.is_none() && options.station.is_none() && options.tear.is_none() {
        return Err("--lay PATH, --box PATH or --tear PATH is missing; see --help".into());
    }
    Ok(options)
}

fn number(word: &str) -> Result<u64, String> {
    word.parse().map_err(|_| format!("{word} is not a number"))
}

fn clock_seed() -> u64 {
    let since = SystemTime::now().duration_since(SystemTime::UNIX_EPOCH);
    since.map_or(0, |time| time.as_micros() as u64)
}

fn compare(options: &Options) -> Result<ExitCode, String> {
    println!("compare: seed {}", options.seed);
    let mut scratch = Scratch::new().map_err(|error| format!("scratch directory: {error}"))?;
    let mut same = true;
    if let Some(program) = &options.lay {
        same = lay::compare(program, options, &mut scratch).map_err(of_program(program))?;
    }
    if let Some(program) = options.station.as_ref().filter(|_| same) {
        same = station::compare(program, options, &mut scratch).map_err(of_program(program))?;
    }
    if let Some(program) = options.tear.as_ref().filter(|_| same) {
        same = tear::compare(program, options, &mut scratch).map_err(of_program(program))?;
    }
    Ok(if same { ExitCode::SUCCESS } else { ExitCode::FAILURE })
}

fn of_program(program: &Path) -> impl Fn(io::Error) -> String + '_ {
    |error| format!("{}: {error}", program.display())
}
