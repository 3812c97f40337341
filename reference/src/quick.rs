//! Repairs as in [`crate::repairs`], worked out quickly: when a link fails only the
//! nodes that it touches, those whose paths use it, are worked out anew.

use crate::adjacency::Adjacency;
use crate::node::{NodeId, NodeSet};
use crate::repairs::{sender_over, Protection, Repair};
use crate::routes::Routes;
use crate::topology::{Link, Topology};

/// The protection of one link for each destination in turn.
pub fn protections(
    link: Link,
    topology: &Topology,
    network: &Adjacency,
    routes: &Routes,
) -> Vec<Protection> {
    let protect = |to| {
        let repair = |sender| repair(link, sender, to, topology, network, routes);
        Protection::of(sender_over(link, to, routes), repair)
    };
    topology.nodes().map(protect).collect()
}

/// The hop of the path that is left to the first node that the sender reaches over the
/// link: those that it reaches by another neighbour come first.
fn repair(
    failed: Link,
    sender: NodeId,
    destination: NodeId,
    topology: &Topology,
    network: &Adjacency,
    routes: &Routes,
) -> Option<Repair> {
    let [lower, higher] = failed.ends();
    let other = if sender == lower { higher } else { lower };
    let touched = touched(failed, destination, topology, routes);
    let distances = routes.distances(destination).without(failed, touched, network);
    let cost = distances.distance(sender)?;
    let mut p = sender;
    while let Some(q) = distances.next_hop_without(failed, p, network) {
        if routes.next_hop(sender, q) == Some(other) {
            return Some(Repair { p, q, cost });
        }
        p = q;
    }
    None
}

/// The nodes whose paths to the destination use the link.
fn touched(failed: Link, destination: NodeId, topology: &Topology, routes: &Routes) -> NodeSet {
    let mut known = NodeSet::EMPTY;
    let mut touched = NodeSet::EMPTY;
    for node in topology.nodes() {
        follow(failed, destination, node, routes, &mut known, &mut touched);
    }
    touched
}

/// Whether the path of a node uses it. No path is followed twice.
fn follow(
    failed: Link,
    destination: NodeId,
    node: NodeId,
    routes: &Routes,
    known: &mut NodeSet,
    touched: &mut NodeSet,
) -> bool {
    if known.contains(node) {
        return touched.contains(node);
    }
    let uses = routes.next_hop(node, destination).is_some_and(|next| {
        failed.joins(node, next) || follow(failed, destination, next, routes, known, touched)
    });
    known.insert(node);
    if uses {
        touched.insert(node);
    }
    uses
}
