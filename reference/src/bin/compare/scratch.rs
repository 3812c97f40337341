//! Files for the programs, and what is kept after a difference.

use reference::answer::{Answer, Run};
use reference::fault::Fault;
use reference::inputs::Input;
use reference::station::Written;
use reference::tear::Played;
use reference::wire::PIECE;
use std::fs;
use std::io;
use std::path::PathBuf;

/// A directory of this process for inputs and, after a difference, outputs.
pub struct Scratch {
    pub path: PathBuf,
    keep: bool,
}

impl Scratch {
    pub fn new() -> io::Result<Scratch> {
        let path = std::env::temp_dir().join(format!("compare-{}", std::process::id()));
        fs::create_dir_all(&path)?;
        Ok(Scratch { path, keep: false })
    }

    pub fn write(&self, name: &str, bytes: &[u8]) -> io::Result<PathBuf> {
        let path = self.path.join(name);
        fs::write(&path, bytes)?;
        Ok(path)
    }

    /// Keeps an input with both answers, and prints where.
    pub fn keep_input(&mut self, input: &Input, expected: &Answer, run: &Run) -> io::Result<()> {
        self.write("input.links", &input.bytes)?;
        let input = self.write("input.hex", hex(&input.bytes).as_bytes())?;
        println!("input in hex:    {}", input.display());
        match expected {
            Ok(text) => self.keep_answers(text, "", run),
            Err(fault) => self.keep_answers(&[], &format!("{fault}\n"), run),
        }
    }

    /// Keeps a stream with both answers, and prints where.
    pub fn keep_stream(&mut self, bytes: &[u8], expected: &Written, run: &Run) -> io::Result<()> {
        self.keep = true;
        let lines: Vec<String> =
            expected.complaints.iter().map(|complaint| format!("{complaint}\n")).collect();
        self.write("box.frames", bytes)?;
        self.write("expected", &expected.output)?;
        self.write("expected.err", lines.concat().as_bytes())?;
        self.write("found", &run.stdout)?;
        self.write("found.err", &run.stderr)?;
        println!("frames, outputs: {}", self.path.display());
        Ok(())
    }

    /// Keeps a script, which is written already, with both answers.
    pub fn keep_script(&mut self, expected: &Result<Played, Fault>, run: &Run) -> io::Result<()> {
        println!("links, script:   {}/tear.*", self.path.display());
        match expected {
            Err(fault) => self.keep_answers(&[], &format!("{fault}\n"), run),
            Ok(Played { text, end: Ok(()) }) => self.keep_answers(text.as_bytes(), "", run),
            Ok(Played { text, end: Err(bad) }) => {
                self.keep_answers(text.as_bytes(), &format!("{bad}\n"), run)
            }
        }
    }

    fn keep_answers(&mut self, stdout: &[u8], stderr: &str, run: &Run) -> io::Result<()> {
        self.keep = true;
        let expected = self.write("expected", stdout)?;
        println!("expected output: {}, standard error {stderr:?}", expected.display());
        let found = self.write("found", &run.stdout)?;
        let stderr = String::from_utf8_lossy(&run.stderr);
        println!("found output:    {}, standard error {stderr:?}", found.display());
        Ok(())
    }
}

impl Drop for Scratch {
    fn drop(&mut self) {
        if !self.keep {
            // What is left behind in a temporary directory does no harm.
            let _ = fs::remove_dir_all(&self.path);
        }
    }
}

/// A line for the header and for each link.
fn hex(list: &[u8]) -> String {
    let mut text = String::new();
    for piece in list.chunks(PIECE) {
        let digits: Vec<String> = piece.iter().map(|byte| format!("{byte:02x}")).collect();
        text += &digits.join(" ");
        text += "\n";
    }
    text
}
