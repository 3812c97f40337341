//! The times of runs.

use crate::processor_time;
use std::fs::File;
use std::io;
use std::path::Path;
use std::process::{Command, Stdio};
use std::time::{Duration, Instant};

/// What a program reads from standard input.
#[derive(Clone, Copy)]
pub enum Input<'a> {
    None,
    File(&'a Path),
}

impl Input<'_> {
    fn open(self) -> io::Result<Stdio> {
        match self {
            Input::None => Ok(Stdio::null()),
            Input::File(path) => File::open(path).map(Stdio::from),
        }
    }
}

/// The times of programs say something only if they do the same.
pub fn check_same_output(programs: Vec<Command>, input: Input) -> Result<(), String> {
    let mut outputs = Vec::new();
    for mut command in programs {
        let name = command.get_program().to_string_lossy().into_owned();
        let output = input.open().and_then(|input| command.stdin(input).output());
        let output = output.map_err(|error| format!("{name}: {error}"))?;
        if !output.status.success() {
            let why = String::from_utf8_lossy(&output.stderr).trim().to_owned();
            return Err(format!("{name}: {why} ({})", output.status));
        }
        outputs.push(output.stdout);
    }
    if outputs.iter().any(|output| *output != outputs[0]) {
        return Err("the programs print different texts".into());
    }
    Ok(())
}

/// The time of one run of a program.
pub struct Sample {
    pub processor: Duration,
    pub wall: Duration,
}

/// Runs the programs in turn, so that all meet the same load of the machine.
pub fn measure(
    mut programs: Vec<Command>,
    input: Input,
    rounds: usize,
) -> io::Result<Vec<Vec<Sample>>> {
    let mut samples: Vec<Vec<Sample>> = programs.iter().map(|_| Vec::new()).collect();
    for _ in 0..rounds {
        for (program, samples) in programs.iter_mut().zip(&mut samples) {
            samples.push(sample(program, input)?);
        }
    }
    Ok(samples)
}

fn sample(program: &mut Command, input: Input) -> io::Result<Sample> {
    let input = input.open()?;
    let before = processor_time::of_children()?;
    let start = Instant::now();
    program.stdin(input).stdout(Stdio::null()).status()?;
    let wall = start.elapsed();
    let processor = processor_time::of_children()? - before;
    Ok(Sample { processor, wall })
}

/// Milliseconds of a program's runs.
pub struct Summary {
    pub median: f64,
    pub least: f64,
}

impl Summary {
    pub fn of(samples: &[Sample], time: impl Fn(&Sample) -> Duration) -> Summary {
        let mut times: Vec<f64> = samples.iter().map(|s| 1e3 * time(s).as_secs_f64()).collect();
        times.sort_by(f64::total_cmp);
        Summary { median: times[times.len() / 2], least: times[0] }
    }
}
