//! Networks played by scripts.

mod bad_lines;
mod packets;
mod printed;

use crate::support::topology;
use reference::topology::Topology;

fn ring() -> Topology {
    topology(4, &[(0, 1, 1), (0, 3, 1), (1, 2, 1), (2, 3, 1)])
}
