//! The plan that `lay` prints.

use crate::node::NodeId;
use crate::repairs::{Protection, Repair};
use crate::routes::Routes;
use crate::topology::{Link, Topology};

/// A text that grows row by row.
#[derive(Default)]
pub struct Report(Vec<u8>);

impl Report {
    pub fn into_bytes(self) -> Vec<u8> {
        self.0
    }

    pub fn places(&mut self, topology: &Topology) {
        self.text("places ");
        self.number(topology.node_count().into());
        self.end_line();
    }

    /// A row for each node, a column for each destination.
    pub fn distances(&mut self, topology: &Topology, routes: &Routes) {
        self.text("distances");
        self.end_line();
        self.square(topology, |node, to| routes.distance(node, to));
    }

    /// A row for each node, a column for each destination.
    pub fn tables(&mut self, topology: &Topology, routes: &Routes) {
        self.text("tables");
        self.end_line();
        self.square(topology, |node, to| Some(routes.next_hop(node, to)?.0.into()));
    }

    /// A row for each link, a column for each destination.
    /// `protections` says what each link's failure means for each destination.
    pub fn detours(&mut self, topology: &Topology, protections: impl Fn(Link) -> Vec<Protection>) {
        self.text("detours");
        self.end_line();
        for &link in topology.links() {
            self.hop(link.lower, link.higher);
            self.text(":");
            for protection in protections(link) {
                self.text(" ");
                self.protection(protection);
            }
            self.end_line();
        }
    }

    fn square(&mut self, topology: &Topology, entry: impl Fn(NodeId, NodeId) -> Option<u32>) {
        for node in topology.nodes() {
            self.node(node);
            self.text(":");
            for destination in topology.nodes() {
                self.text(" ");
                match entry(node, destination) {
                    None => self.text("-"),
                    Some(number) => self.number(number),
                }
            }
            self.end_line();
        }
    }

    fn protection(&mut self, protection: Protection) {
        match protection {
            Protection::Unused => self.text("unused"),
            Protection::Apart { .. } => self.text("apart"),
            Protection::Repaired { sender, repair: Repair { p, q, .. } } => {
                self.node(sender);
                self.text(":");
                self.hop(p, q);
            }
        }
    }

    fn hop(&mut self, from: NodeId, to: NodeId) {
        self.node(from);
        self.text("-");
        self.node(to);
    }

    fn node(&mut self, node: NodeId) {
        self.number(node.0.into());
    }

    fn number(&mut self, number: u32) {
        const LONGEST: usize = 10;
        let mut digits = [0; LONGEST];
        let mut start = LONGEST;
        let mut rest = number;
        loop {
            start -= 1;
            digits[start] = b'0' + (rest % 10) as u8;
            rest /= 10;
            if rest == 0 {
                break;
            }
        }
        self.0.extend_from_slice(&digits[start..]);
    }

    fn text(&mut self, text: &str) {
        self.0.extend_from_slice(text.as_bytes());
    }

    fn end_line(&mut self) {
        self.0.push(b'\n');
    }
}
