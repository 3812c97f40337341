//! A list of links in bytes, numbers high byte first: a header of kind (1),
//! number of nodes (1) and number of links (2), then each link as lower node
//! (1), higher node (1) and cost (2).

use crate::fault::Fault;
use crate::node::NodeId;
use crate::topology::{Link, Topology};

/// The kind byte of a list of links.
pub const LINKS: u8 = 1;

/// The length of the header, and of each link.
pub const PIECE: usize = 4;

/// Reads piece by piece (the header, each link, the end) and stops at the first
/// piece with a fault.
pub fn parse(bytes: &[u8]) -> Result<Topology, Fault> {
    let Some((header, mut rest)) = bytes.split_first_chunk::<PIECE>() else {
        return Err(Fault::HeaderCut { bytes: bytes.len() });
    };
    let [kind, nodes, count @ ..] = *header;
    if kind != LINKS {
        return Err(Fault::UnknownKind { kind });
    }
    let mut topology = Topology::new(nodes)?;
    for position in 1..=u16::from_be_bytes(count) {
        let Some((piece, after)) = rest.split_first_chunk::<PIECE>() else {
            return Err(Fault::LinkCut { position, bytes: rest.len() });
        };
        topology.push(parse_link(*piece))?;
        rest = after;
    }
    if !rest.is_empty() {
        return Err(Fault::LeftOver { bytes: rest.len() });
    }
    Ok(topology)
}

fn parse_link([lower, higher, cost @ ..]: [u8; PIECE]) -> Link {
    Link { lower: NodeId(lower), higher: NodeId(higher), cost: u16::from_be_bytes(cost) }
}

pub fn emit(topology: &Topology) -> Vec<u8> {
    let count = topology.links().len() as u16;
    let mut bytes = vec![LINKS, topology.node_count()];
    bytes.extend(count.to_be_bytes());
    for link in topology.links() {
        bytes.extend([link.lower.0, link.higher.0]);
        bytes.extend(link.cost.to_be_bytes());
    }
    bytes
}
