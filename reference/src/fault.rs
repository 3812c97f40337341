//! Why a list of links is refused.

use crate::node::{NodeId, MAX_NODES};
use crate::topology::Link;
use std::fmt;

/// A fault in a list of links. Links are counted from 1.
#[derive(Clone, Copy, Debug, PartialEq, Eq)]
pub enum Fault {
    HeaderCut { bytes: usize },
    UnknownKind { kind: u8 },
    LinkCut { position: u16, bytes: usize },
    LeftOver { bytes: usize },
    NodeCount { nodes: u8 },
    NodeOutOfRange { position: usize, node: NodeId, nodes: u8 },
    ZeroCost { position: usize, link: Link },
    SelfLink { position: usize, link: Link },
    HigherFirst { position: usize, link: Link },
    NotRising { position: usize, link: Link, last: Link },
}

impl Fault {
    /// The number by which all programs name the fault: 1 where bytes have the
    /// wrong kind or length, 2 where a value is out of range, 3 where nodes or
    /// links are out of order.
    pub fn number(&self) -> u8 {
        match self {
            Fault::HeaderCut { .. }
            | Fault::UnknownKind { .. }
            | Fault::LinkCut { .. }
            | Fault::LeftOver { .. } => 1,
            Fault::NodeCount { .. } | Fault::NodeOutOfRange { .. } | Fault::ZeroCost { .. } => 2,
            Fault::SelfLink { .. } | Fault::HigherFirst { .. } | Fault::NotRising { .. } => 3,
        }
    }
}

/// One line: the number, where the fault is, and why it is one.
impl fmt::Display for Fault {
    fn fmt(&self, f: &mut fmt::Formatter<'_>) -> fmt::Result {
        write!(f, "fault {}: ", self.number())?;
        match self {
            Fault::HeaderCut { bytes } => write!(f, "header: cut after {bytes} of 4 bytes"),
            Fault::UnknownKind { kind } => {
                write!(f, "header: kind {kind} is not a list of links (1)")
            }
            Fault::LinkCut { position, bytes } => {
                write!(f, "link {position}: cut after {bytes} of 4 bytes")
            }
            Fault::LeftOver { bytes } => write!(f, "end: bytes left over: {bytes}"),
            Fault::NodeCount { nodes } => {
                write!(f, "header: {nodes} nodes, not 1 to {MAX_NODES}")
            }
            Fault::NodeOutOfRange { position, node, nodes } => {
                write!(f, "link {position}: node {node} is not below {nodes}")
            }
            Fault::ZeroCost { position, link } => {
                write!(f, "link {position}: {link} has a cost of 0")
            }
            Fault::SelfLink { position, link } => {
                write!(f, "link {position}: {link} joins a node to itself")
            }
            Fault::HigherFirst { position, link } => {
                write!(f, "link {position}: {link} names its higher node first")
            }
            Fault::NotRising { position, link, last } => {
                write!(f, "link {position}: {link} does not come after {last}")
            }
        }
    }
}
