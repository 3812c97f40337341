//! What the failures of single links mean for a network, in a few lines.

use crate::adjacency::Adjacency;
use crate::node::NodeId;
use crate::repairs::{protections, Protection, Repair};
use crate::routes::Routes;
use crate::topology::{Link, Topology};
use std::collections::BTreeMap;
use std::fmt;

pub struct Summary {
    nodes: u8,
    links: usize,
    /// Pairs of a link and a destination that have a repair, in rising order.
    detours: Vec<Detour>,
    /// The destinations that an end of a failed link has no path to any more.
    cuts: BTreeMap<(Link, NodeId), Vec<NodeId>>,
}

/// The path from an end of a failed link to a destination.
struct Detour {
    failed: Link,
    sender: NodeId,
    destination: NodeId,
    cost: u32,
    /// The cost before the failure.
    was: u32,
}

impl Summary {
    pub fn of(topology: &Topology, network: &Adjacency, routes: &Routes) -> Summary {
        let mut summary = Summary {
            nodes: topology.node_count(),
            links: topology.links().len(),
            detours: Vec::new(),
            cuts: BTreeMap::new(),
        };
        for &failed in topology.links() {
            let protections = protections(failed, topology, network, routes);
            for (destination, protection) in topology.nodes().zip(protections) {
                summary.add(failed, destination, protection, routes);
            }
        }
        summary
    }

    fn add(&mut self, failed: Link, destination: NodeId, protection: Protection, routes: &Routes) {
        match protection {
            Protection::Unused => {}
            Protection::Apart { sender } => {
                self.cuts.entry((failed, sender)).or_default().push(destination);
            }
            Protection::Repaired { sender, repair: Repair { cost, .. } } => {
                let was = routes.distance(sender, destination).expect("a path over the link");
                self.detours.push(Detour { failed, sender, destination, cost, was });
            }
        }
    }

    /// How many pairs of a link and a destination there are for which an end
    /// sends over the link.
    fn used(&self) -> usize {
        self.detours.len() + self.cuts.values().map(Vec::len).sum::<usize>()
    }

    /// The first of the detours that add most to the cost.
    fn longest(&self) -> Option<&Detour> {
        // Backwards, since `max_by_key` gives the last of equals.
        self.detours.iter().rev().max_by_key(|detour| detour.more())
    }
}

impl Detour {
    /// What the failure adds to the cost.
    fn more(&self) -> u32 {
        self.cost - self.was
    }
}

impl fmt::Display for Summary {
    fn fmt(&self, f: &mut fmt::Formatter<'_>) -> fmt::Result {
        writeln!(f, "places {}", self.nodes)?;
        writeln!(f, "links {}", self.links)?;
        writeln!(f, "repaired {} of {}", self.detours.len(), self.used())?;
        if self.cuts.is_empty() {
            writeln!(f, "cut off none")?;
        }
        for ((failed, sender), destinations) in &self.cuts {
            write!(f, "cut off {failed}: {sender} from")?;
            for destination in destinations {
                write!(f, " {destination}")?;
            }
            writeln!(f)?;
        }
        match self.longest() {
            None => writeln!(f, "longest none"),
            Some(detour) => writeln!(f, "longest {detour}"),
        }
    }
}

impl fmt::Display for Detour {
    fn fmt(&self, f: &mut fmt::Formatter<'_>) -> fmt::Result {
        let Detour { failed, sender, destination, cost, was } = self;
        write!(f, "{failed}: {sender} to {destination} costs {cost}, was {was}")
    }
}
