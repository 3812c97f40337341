//! A whole network played by a script, to the end or to the first bad line.

use crate::network::Network;
use crate::script::{play_line, BadLine};
use crate::topology::Topology;

/// What was printed, and how the script ended.
#[derive(Clone, Debug, PartialEq, Eq)]
pub struct Played {
    pub text: String,
    pub end: Result<(), BadLine>,
}

pub fn tear(topology: Topology, script: &[u8]) -> Played {
    let mut network = Network::new(topology);
    let mut text = String::new();
    for (line, number) in script.split(|&byte| byte == b'\n').zip(1..) {
        match play_line(line, &mut network) {
            Ok(printed) => text += &printed,
            Err(why) => return Played { text, end: Err(BadLine { number, why }) },
        }
    }
    Played { text, end: Ok(()) }
}
