//! Lines of scripts that are bad on every network.

use crate::topology::Topology;

/// All such lines, with the first number that is no node of this one.
pub fn bad_lines(topology: &Topology) -> Vec<String> {
    let n = topology.node_count();
    let fixed = [
        "close",
        "close 0",
        "close 0 0",
        "close 0 0 0",
        "close x 0",
        "closed",
        "words 1",
        "Words",
        "deliver",
        "deliver 0",
        "deliver 1000000",
        "deliver x",
        "deliver all 1",
        "deliver -1",
        "again",
        "again 0",
        "again 1000000",
        "again all",
        "over",
        "over 0",
        "over 0 0 0",
        "over all 0",
        "over 0 all",
        "send",
        "send 0",
        "send 0 0 0 0 0 0",
        "send 0 0 0-0",
        "send 0 0 0-",
        "send 0 0 -0",
        "send 0 0 0--0",
        "send 0 0 x",
        "put",
        "put 0",
        "put 0 0 0 0 0 0",
        "put 0 0 0-0",
        "hop",
        "hop 0",
        "hop 1000000",
        "hop x",
        "run",
        "run 0",
        "run 1000000",
        "run 1 1",
        "state 0",
        "jump",
        "99999999999999999999",
        "deliver 99999999999999999999",
        "hop 99999999999999999999",
        "send 256 0",
    ];
    let lines = fixed.into_iter().map(String::from);
    let too_high = [
        format!("close 0 {n}"),
        format!("over {n} 0"),
        format!("over 0 {n}"),
        format!("send {n} 0"),
        format!("send 0 {n}"),
        format!("send 0 0 {n}"),
        format!("send 0 0 0 0-{n}"),
        format!("put 0 0 {n}-0"),
    ];
    lines.chain(too_high).collect()
}
