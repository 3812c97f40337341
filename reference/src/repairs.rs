//! Repairs: how a packet still arrives when a link on its path has failed and
//! only the link's ends know it.

use crate::adjacency::Adjacency;
use crate::distances::Distances;
use crate::node::NodeId;
use crate::routes::Routes;
use crate::topology::{Link, Topology};

/// A packet is sent to `p` by the present next hops, then over the link to `q`,
/// and on from there by the present next hops.
#[derive(Clone, Copy, Debug, PartialEq, Eq)]
pub struct Repair {
    pub p: NodeId,
    pub q: NodeId,
    /// The least cost of a path that is left.
    pub cost: u32,
}

/// What the failure of a link means for one destination.
#[derive(Clone, Copy, Debug, PartialEq, Eq)]
pub enum Protection {
    /// Neither end sends over the link.
    Unused,
    /// `sender` is the end that sends over the link; without it there is no path.
    Apart { sender: NodeId },
    /// `sender` is the end that sends over the link.
    Repaired { sender: NodeId, repair: Repair },
}

impl Protection {
    /// By the end that sends over the link, if one does, and the repair that it has.
    pub fn of(sender: Option<NodeId>, repair: impl FnOnce(NodeId) -> Option<Repair>) -> Protection {
        match sender {
            None => Protection::Unused,
            Some(sender) => match repair(sender) {
                None => Protection::Apart { sender },
                Some(repair) => Protection::Repaired { sender, repair },
            },
        }
    }
}

/// The protection of one link for each destination in turn.
pub fn protections(
    link: Link,
    topology: &Topology,
    network: &Adjacency,
    routes: &Routes,
) -> Vec<Protection> {
    let senders: Vec<_> = topology.nodes().map(|to| sender_over(link, to, routes)).collect();
    if senders.iter().all(Option::is_none) {
        return vec![Protection::Unused; senders.len()];
    }
    let rest = network.without(link);
    let protect = |(destination, sender)| {
        Protection::of(sender, |sender| repair(link, sender, destination, &rest, routes))
    };
    topology.nodes().zip(senders).map(protect).collect()
}

/// The end of the link whose next hop for the destination is the other end. It
/// can't be both: each would be farther from the destination than the other.
pub fn sender_over(link: Link, destination: NodeId, routes: &Routes) -> Option<NodeId> {
    let [lower, higher] = link.ends();
    if routes.next_hop(lower, destination) == Some(higher) {
        Some(lower)
    } else if routes.next_hop(higher, destination) == Some(lower) {
        Some(higher)
    } else {
        None
    }
}

/// The last hop p to q of the path by the next hops of the rest of the network
/// such that the present paths from the sender to p and from q to the
/// destination don't use the failed link.
fn repair(
    failed: Link,
    sender: NodeId,
    destination: NodeId,
    rest: &Adjacency,
    routes: &Routes,
) -> Option<Repair> {
    let distances = Distances::up_to(sender, destination, rest);
    let cost = distances.distance(sender)?;
    let next = |&node: &NodeId| distances.next_hop(node, rest);
    let path: Vec<NodeId> = std::iter::successors(Some(sender), next).collect();
    path.windows(2).rev().map(|hop| Repair { p: hop[0], q: hop[1], cost }).find(|hop| {
        !routes.path_uses(failed, sender, hop.p) && !routes.path_uses(failed, hop.q, destination)
    })
}
