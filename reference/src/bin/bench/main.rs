//! `bench`: the processor time of a `lay` and a `box` program beside that of the
//! reference.

mod measure;
mod processor_time;
mod station;
mod table;

use measure::{check_same_output, measure, Input};
use std::process::{Command, ExitCode};
use table::{print_heading, print_row, Network};

const HELP: &str = "\
usage: bench --lay PATH --reference PATH [--former PATH] [--rounds N]
             [--box PATH --stream FRAMES] FILE..

Runs `LAY FILE`, `REFERENCE lay --quick FILE` (which works out anew only what a failed
link touches), `REFERENCE lay FILE` (which works out more) and, with --former, another
lay in turn, N times each (200), and prints the median and the least time of a run,
and what part of each other's time LAY takes. With --box, `BOX NODE` and `REFERENCE box
NODE` too, on frames that are all packets but for the list of links in front, and
prints how many packets a second each takes.
";

struct Options {
    lay: String,
    reference: String,
    former: Option<String>,
    rounds: usize,
    files: Vec<String>,
    station: Option<String>,
    stream: Option<String>,
}

impl Options {
    /// The programs, set to read the file; `lay` comes first.
    fn commands(&self, file: &str) -> Vec<Command> {
        let command = |program: &str, words: &[&str]| {
            let mut command = Command::new(program);
            command.args(words).arg(file);
            command
        };
        let mut commands = vec![
            command(&self.lay, &[]),
            command(&self.reference, &["lay", "--quick"]),
            command(&self.reference, &["lay"]),
        ];
        commands.extend(self.former.as_deref().map(|former| command(former, &[])));
        commands
    }

    fn names(&self) -> Vec<&'static str> {
        let mut names = vec!["lay", "quick ref.", "reference"];
        names.extend(self.former.as_ref().map(|_| "former lay"));
        names
    }
}

fn main() -> ExitCode {
    let arguments: Vec<String> = std::env::args().skip(1).collect();
    if arguments == ["--help"] {
        print!("{HELP}");
        return ExitCode::SUCCESS;
    }
    match parse(arguments).and_then(|options| bench(&options)) {
        Ok(()) => ExitCode::SUCCESS,
        Err(why) => {
            eprintln!("bench: {why}");
            ExitCode::FAILURE
        }
    }
}

fn parse(arguments: Vec<String>) -> Result<Options, String> {
    let mut lay = None;
    let mut reference = None;
    let mut former = None;
    let mut rounds = 200;
    let mut files = Vec::new();
    let (mut station, mut stream) = (None, None);
    let mut words = arguments.into_iter();
    while let Some(word) = words.next() {
        let mut value = || words.next().ok_or(format!("{word} needs a value"));
        match word.as_str() {
            "--lay" => lay = Some(value()?),
            "--reference" => reference = Some(value()?),
            "--former" => former = Some(value()?),
            "--rounds" => rounds = positive(&value()?)?,
            "--box" => station = Some(value()?),
            "--stream" => stream = Some(value()?),
            _ if word.starts_with("--") => return Err(format!("unknown option {word}")),
            _ => files.push(word),
        }
    }
    Ok(Options {
        lay: lay.ok_or("--lay PATH is missing; see --help")?,
        reference: reference.ok_or("--reference PATH is missing; see --help")?,
        former,
        rounds,
        files,
        station,
        stream,
    })
}

fn positive(word: &str) -> Result<usize, String> {
    match word.parse() {
        Ok(number) if number > 0 => Ok(number),
        _ => Err(format!("{word} is not a number above 0")),
    }
}

fn bench(options: &Options) -> Result<(), String> {
    let mut networks = Vec::new();
    for file in &options.files {
        let network = Network::read(file).map_err(|why| format!("{file}: {why}"))?;
        check_same_output(options.commands(file), Input::None)
            .map_err(|why| format!("{file}: {why}"))?;
        networks.push((file, network));
    }
    print_heading(&options.names(), options.rounds);
    for (file, network) in &networks {
        let samples = measure(options.commands(file), Input::None, options.rounds)
            .map_err(|error| format!("{file}: {error}"))?;
        print_row(network, "processor", &samples, |sample| sample.processor);
        print_row(network, "wall", &samples, |sample| sample.wall);
    }
    match (&options.station, &options.stream) {
        (Some(program), Some(stream)) => station::bench(options, program, stream),
        _ => Ok(()),
    }
}
