//! A list of links with all that is worked out from it.

use crate::adjacency::Adjacency;
use crate::node::{NodeId, NodeSet};
use crate::repairs::{protections, Protection, Repair};
use crate::routes::Routes;
use crate::topology::{Link, Topology};

pub struct Plan {
    topology: Topology,
    network: Adjacency,
    routes: Routes,
}

impl Plan {
    pub fn of(topology: Topology) -> Plan {
        let network = Adjacency::of(&topology);
        let routes = Routes::new(&topology, &network);
        Plan { topology, network, routes }
    }

    /// The plan after the link has failed.
    pub fn without(&self, failed: Link) -> Plan {
        Plan::of(self.topology.without(failed))
    }

    pub fn topology(&self) -> &Topology {
        &self.topology
    }

    pub fn routes(&self) -> &Routes {
        &self.routes
    }

    pub fn has(&self, link: Link) -> bool {
        self.topology.links().contains(&link)
    }

    pub fn neighbours(&self, node: NodeId) -> NodeSet {
        self.network.neighbours(node)
    }

    /// The repairs of one router for the failure of a link, one a destination.
    /// Only an end of the link has any.
    pub fn repairs(&self, failed: Link, router: NodeId) -> Vec<Option<Repair>> {
        if !failed.ends().contains(&router) {
            return vec![None; self.topology.node_count().into()];
        }
        let own = |protection| match protection {
            Protection::Repaired { sender, repair } if sender == router => Some(repair),
            _ => None,
        };
        let all = protections(failed, &self.topology, &self.network, &self.routes);
        all.into_iter().map(own).collect()
    }

    /// The neighbours of a router that must have switched for the destination
    /// before it may, when the link has failed: those that send to the
    /// destination through it, where its own path uses the link. Their paths go
    /// on as its own does, so that they use the link too.
    pub fn upstream(&self, failed: Link, router: NodeId, destination: NodeId) -> NodeSet {
        if !self.routes.path_uses(failed, router, destination) {
            return NodeSet::EMPTY;
        }
        let sends = |neighbour: &NodeId| {
            self.routes.next_hop(*neighbour, destination) == Some(router)
                && self.routes.path_uses(failed, *neighbour, destination)
        };
        self.neighbours(router).filter(sends).collect()
    }
}
