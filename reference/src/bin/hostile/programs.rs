//! The programs, and how they are run.

use reference::answer::Run;
use std::fs;
use std::io::{self, Read, Write};
use std::path::{Path, PathBuf};
use std::process::{Child, ChildStdin, Command, Stdio};
use std::thread;
use std::time::{Duration, Instant};

/// The ring of four of the examples.
pub const RING: &[u8] = include_bytes!("../../../../examples/ring4.links");

/// The railway of the examples, with sixty nodes.
pub const RAILWAY: &[u8] = include_bytes!("../../../../examples/railway.links");

/// How long a run may take. Most take some milliseconds.
pub const PATIENCE: Duration = Duration::from_secs(20);

pub struct Programs {
    pub lay: PathBuf,
    pub station: PathBuf,
    pub tear: PathBuf,
    /// A folder for files, with `ring` and `railway` in it.
    scratch: PathBuf,
}

impl Programs {
    pub fn new(lay: PathBuf, station: PathBuf, tear: PathBuf) -> io::Result<Programs> {
        let scratch = std::env::temp_dir().join(format!("hostile-{}", std::process::id()));
        fs::create_dir_all(&scratch)?;
        fs::write(scratch.join("ring"), RING)?;
        fs::write(scratch.join("railway"), RAILWAY)?;
        let [lay, station, tear] = [lay, station, tear].map(|path| path.canonicalize());
        Ok(Programs { lay: lay?, station: station?, tear: tear?, scratch })
    }

    /// The program that the documents call so.
    pub fn named(&self, name: &str) -> &Path {
        match name {
            "lay" => &self.lay,
            "box" => &self.station,
            _ => &self.tear,
        }
    }

    /// A file of the folder.
    pub fn path(&self, name: &str) -> PathBuf {
        self.scratch.join(name)
    }

    /// A run of the program in the folder, with nothing on standard input.
    pub fn call<'a>(&'a self, name: &str, words: &'a [&'a str]) -> Call<'a> {
        Call {
            program: self.named(name),
            folder: &self.scratch,
            words,
            surroundings: "",
            input: Input::Bytes(&[]),
            reads_log: true,
        }
    }
}

impl Drop for Programs {
    fn drop(&mut self) {
        // What is left behind in a temporary directory does no harm.
        let _ = fs::remove_dir_all(&self.scratch);
    }
}

#[derive(Clone, Copy)]
pub enum Input<'a> {
    Bytes(&'a [u8]),
    /// The head, and then the tail again and again.
    Endless {
        head: &'a [u8],
        tail: &'a [u8],
    },
}

/// A run that is yet to be.
#[derive(Clone, Copy)]
pub struct Call<'a> {
    program: &'a Path,
    folder: &'a Path,
    words: &'a [&'a str],
    surroundings: &'a str,
    input: Input<'a>,
    reads_log: bool,
}

impl<'a> Call<'a> {
    /// What a shell does before it becomes the program.
    pub fn after(self, surroundings: &'a str) -> Call<'a> {
        Call { surroundings, ..self }
    }

    pub fn reading(self, input: Input<'a>) -> Call<'a> {
        Call { input, ..self }
    }

    /// Standard error is a pipe that is closed at its other end.
    pub fn log_unread(self) -> Call<'a> {
        Call { reads_log: false, ..self }
    }

    pub fn run(self) -> io::Result<Run> {
        Ok(self.run_counting()?.0)
    }

    /// The run, and how many bytes it took or left in the pipe. One that takes too
    /// long is killed.
    pub fn run_counting(self) -> io::Result<(Run, usize)> {
        let (mut child, stdin) = self.start()?;
        let (stdout, stderr) = (child.stdout.take(), child.stderr.take());
        thread::scope(|scope| {
            let feeder = scope.spawn(|| feed(stdin, self.input));
            let stdout = scope.spawn(|| read_all(stdout));
            let stderr = scope.spawn(|| read_all(stderr));
            let status = wait(&mut child)?;
            let stdout = stdout.join().expect("no reader panics")?;
            let stderr = stderr.join().expect("no reader panics")?;
            let taken = feeder.join().expect("no feeder panics");
            Ok((Run { status, stdout, stderr }, taken))
        })
    }

    /// The process, and its standard input, which isn't written yet.
    pub fn start(self) -> io::Result<(Child, Option<ChildStdin>)> {
        let mut command = Command::new("sh");
        let code = format!("{}\nexec \"$0\" \"$@\"", self.surroundings);
        command.arg("-c").arg(code).arg(self.program).args(self.words).current_dir(self.folder);
        command.stdin(Stdio::piped()).stdout(Stdio::piped()).stderr(Stdio::piped());
        let mut child = command.spawn()?;
        if !self.reads_log {
            child.stderr = None;
        }
        let stdin = child.stdin.take();
        Ok((child, stdin))
    }
}

/// How many bytes were taken before the program ended or all were written.
fn feed(stdin: Option<ChildStdin>, input: Input) -> usize {
    let Some(mut pipe) = stdin else { return 0 };
    let (head, tail) = match input {
        Input::Bytes(bytes) => (bytes, Vec::new()),
        Input::Endless { head, tail } => (head, tail.repeat(1024)),
    };
    let mut taken = 0;
    let mut bytes = head;
    loop {
        if bytes.is_empty() {
            bytes = &tail;
        }
        match pipe.write(bytes) {
            Ok(0) | Err(_) => return taken,
            Ok(count) => {
                taken += count;
                bytes = &bytes[count..];
            }
        }
    }
}

fn read_all(pipe: Option<impl Read>) -> io::Result<Vec<u8>> {
    let mut bytes = Vec::new();
    if let Some(mut pipe) = pipe {
        pipe.read_to_end(&mut bytes)?;
    }
    Ok(bytes)
}

/// Its exit status, if it ends by itself and in time.
pub fn wait(child: &mut Child) -> io::Result<Option<i32>> {
    let start = Instant::now();
    while start.elapsed() < PATIENCE {
        if let Some(status) = child.try_wait()? {
            return Ok(status.code());
        }
        thread::sleep(Duration::from_millis(1));
    }
    child.kill()?;
    child.wait()?;
    Ok(None)
}
