//! Compares a `lay` program with the reference: plans and summaries.

use crate::run::{as_run, run_piped};
use crate::scratch::Scratch;
use crate::Options;
use reference::answer::{difference, Answer, Run};
use reference::fault::Fault;
use reference::inputs;
use reference::lay::{lay, Form};
use reference::random::Random;
use std::collections::BTreeMap;
use std::fs;
use std::io;
use std::path::Path;
use std::process::{Command, Stdio};

/// Whether all answers are the same.
pub fn compare(program: &Path, options: &Options, scratch: &mut Scratch) -> io::Result<bool> {
    let random = &mut Random::new(options.seed);
    let inputs = inputs::all(options.networks, random);
    let mut counts = Counts::default();
    for (position, input) in inputs.iter().enumerate() {
        for &form in input.forms {
            let expected = lay(&input.bytes, form);
            let words = random.pick(calls(form));
            let run = run(program, words, &input.bytes, scratch)?;
            if let Some(what) = difference(&expected, &run) {
                println!("input {}: {}, as {}", position + 1, input.name, call_text(words));
                println!("{what}");
                scratch.keep_input(input, &expected, &run)?;
                return Ok(false);
            }
            counts.add(form, &expected);
        }
    }
    println!("plans: {}", counts.text(Form::Plan));
    println!("summaries: {}", counts.text(Form::Summary));
    println!("compare: {} inputs, all the same", inputs.len());
    Ok(true)
}

/// How many inputs were accepted (`None`) and refused with each fault.
#[derive(Default)]
struct Counts(BTreeMap<(Form, Option<u8>), usize>);

impl Counts {
    fn add(&mut self, form: Form, answer: &Answer) {
        let number = answer.as_ref().err().map(Fault::number);
        *self.0.entry((form, number)).or_default() += 1;
    }

    fn text(&self, form: Form) -> String {
        let counts = self.0.iter().filter(|((counted, _), _)| *counted == form);
        let texts = counts.map(|((_, number), count)| match number {
            None => format!("accepted {count}"),
            Some(number) => format!("fault {number} {count}"),
        });
        texts.collect::<Vec<_>>().join(", ")
    }
}

/// The arguments of a program, in which `FILE` stands for a file with the input.
type Words = &'static [&'static str];

/// The ways in which a program can be called.
fn calls(form: Form) -> &'static [Words] {
    match form {
        Form::Plan | Form::QuickPlan => &[&[], &["FILE"]],
        Form::Summary => &[&["--summary"], &["--summary", "FILE"], &["FILE", "--summary"]],
    }
}

fn call_text(words: Words) -> String {
    let call = [&["lay"], words].concat().join(" ");
    if words.contains(&"FILE") {
        call
    } else {
        call + " < FILE"
    }
}

fn run(program: &Path, words: Words, bytes: &[u8], scratch: &Scratch) -> io::Result<Run> {
    let file = scratch.path.join("input.links");
    let mut command = Command::new(program);
    for &word in words {
        command.arg(if word == "FILE" { file.as_os_str() } else { word.as_ref() });
    }
    let output = if words.contains(&"FILE") {
        fs::write(&file, bytes)?;
        command.stdin(Stdio::null()).output()?
    } else {
        run_piped(command, bytes)?
    };
    Ok(as_run(output))
}
