//! Standard error can't be written: what goes out goes out once, and `box` goes on.

use crate::check::{output, status, Check, Report};
use crate::frames::{frame, link_down, packet_to};
use crate::programs::{wait, Call, Input, Programs, PATIENCE, RING};
use reference::answer::Run;
use reference::node::NodeId;
use reference::station;
use std::io::{self, Read, Write};
use std::process::ChildStdout;
use std::sync::mpsc::{channel, Sender};
use std::thread;

/// What standard error is.
#[derive(Clone, Copy)]
enum Log {
    Full,
    Closed,
    Unread,
}

const LOGS: [(&str, Log); 3] =
    [("/dev/full", Log::Full), ("closed", Log::Closed), ("a pipe that nobody reads", Log::Unread)];

impl Log {
    fn of(self, call: Call) -> Call {
        match self {
            Log::Full => call.after("exec 2>/dev/full"),
            Log::Closed => call.after("exec 2>&-"),
            Log::Unread => call.log_unread(),
        }
    }
}

/// What the frames of the worked example give.
const EXAMPLE_OUTPUT: [u8; 21] = [
    1, 2, 1, 255, 253, 0, // the packet to 1
    3, 3, 0, 1, // LinkDown to 3
    3, 2, 1, 255, 253, 2, 0, 3, 1, 3, 2, // the packet to 3, with its repair
];

pub fn test(programs: &Programs, report: &mut Report) -> io::Result<()> {
    let readme = readme_frames();
    let many = [&readme[..], &later_frames(100)].concat();
    let few = [&readme[..], &later_frames(3)].concat();
    for (name, log) in LOGS {
        let serve = log.of(programs.call("box", &["0"]));
        let run = serve.reading(Input::Bytes(&readme.concat())).run()?;
        report.case(&format!("{name}: frames of the worked example"), written(&run, &EXAMPLE_OUTPUT));
        let run = serve.reading(Input::Bytes(&many.concat())).run()?;
        report.case(&format!("{name}: later frames"), written(&run, &expected(&many)));
        let run = run_in_pieces(serve, &few)?;
        report.case(&format!("{name}: several reads"), written(&run, &expected(&few)));
        let run = log.of(programs.call("lay", &["nosuch"])).run()?;
        report.case(&format!("{name}: no such file"), status(&run, 1));
    }
    Ok(())
}

/// Whatever the status is, `box` is to end by itself.
fn written(run: &Run, expected: &[u8]) -> Check {
    output(run, expected)?;
    run.status.map(drop).ok_or("killed or too slow".into())
}

fn readme_frames() -> Vec<Vec<u8>> {
    vec![
        frame(0, RING),
        frame(3, &packet_to(1)),
        frame(0, &link_down(0, 1)),
        frame(3, &packet_to(1)),
        frame(2, &packet_to(1)),
    ]
}

/// So many frames that are refused, each before one that is not.
fn later_frames(count: usize) -> Vec<Vec<u8>> {
    vec![[frame(2, &packet_to(1)), frame(3, &packet_to(1))]; count].concat()
}

fn expected(frames: &[Vec<u8>]) -> Vec<u8> {
    station::play(NodeId(0), &frames.concat()).output
}

/// Cuts each frame in two, and waits for all that is to come of a piece before the
/// next is written, so that no two pieces that give something are read as one.
fn run_in_pieces(call: Call, frames: &[Vec<u8>]) -> io::Result<Run> {
    let (mut child, stdin) = call.start()?;
    let (sender, receiver) = channel();
    let stdout = child.stdout.take();
    let reader = thread::spawn(move || hand_over(stdout, &sender));
    let mut stdout = Vec::new();
    if let Some(mut pipe) = stdin {
        for (position, frame) in frames.iter().enumerate() {
            let (front, back) = frame.split_at(frame.len() / 2);
            // A program that has ended takes nothing, and its output tells so.
            let _ = pipe.write_all(front);
            let given = expected(&frames[..position]).len();
            while stdout.len() < given {
                match receiver.recv_timeout(PATIENCE) {
                    Ok(bytes) => stdout.extend::<Vec<u8>>(bytes),
                    Err(_) => break,
                }
            }
            let _ = pipe.write_all(back);
        }
    }
    let status = wait(&mut child)?;
    reader.join().expect("no reader panics");
    stdout.extend(receiver.iter().flatten());
    Ok(Run { status, stdout, stderr: Vec::new() })
}

/// Sends on what is read, until the end.
fn hand_over(pipe: Option<ChildStdout>, sender: &Sender<Vec<u8>>) {
    let Some(mut pipe) = pipe else { return };
    let mut room = [0; 4096];
    while let Ok(count @ 1..) = pipe.read(&mut room) {
        if sender.send(room[..count].to_vec()).is_err() {
            return;
        }
    }
}
