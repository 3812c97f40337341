//! A stack of 512 KiB: each program does on the railway what it does without a limit.

use crate::check::{errors, output, status, Report};
use crate::frames::{frame, link_down, packet_to};
use crate::programs::{Input, Programs, RAILWAY};
use std::io;

const LIMIT: &str = "ulimit -s 512";

const SCRIPT: &[u8] = b"\
send 9 8
close 8 9
send 9 8
words
state
over all
deliver all
over all
deliver all
over all
send 9 8
put 0 59
run 4
state
";

pub fn test(programs: &Programs, report: &mut Report) -> io::Result<()> {
    let frames = frames();
    let calls = [
        ("lay railway", programs.call("lay", &["railway"])),
        ("lay --summary railway", programs.call("lay", &["--summary", "railway"])),
        ("box 8", programs.call("box", &["8"]).reading(Input::Bytes(&frames))),
        ("tear railway", programs.call("tear", &["railway"]).reading(Input::Bytes(SCRIPT))),
    ];
    for (name, call) in calls {
        let free = call.run()?;
        let limited = call.after(LIMIT).run()?;
        let errors = errors(&limited, &String::from_utf8_lossy(&free.stderr));
        let same = status(&limited, 0).and(output(&limited, &free.stdout)).and(errors);
        report.case(&format!("{name} without a limit"), status(&free, 0));
        report.case(name, same);
    }
    Ok(())
}

/// Packets to all nodes from the router at node 8, before its link 8-9 fails and after.
fn frames() -> Vec<u8> {
    let packets: Vec<u8> = (0..60).flat_map(|node| frame(8, &packet_to(node))).collect();
    [frame(8, RAILWAY), packets.clone(), frame(8, &link_down(8, 9)), packets].concat()
}
