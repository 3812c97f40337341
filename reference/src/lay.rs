//! From a list of links in bytes to the printed text.

use crate::adjacency::Adjacency;
use crate::fault::Fault;
use crate::quick;
use crate::repairs::{self, Protection};
use crate::report::Report;
use crate::routes::Routes;
use crate::summary::Summary;
use crate::topology::{Link, Topology};
use crate::wire;

/// What is printed.
#[derive(Clone, Copy, Debug, PartialEq, Eq, PartialOrd, Ord)]
pub enum Form {
    /// Distances, next-hop tables and repairs.
    Plan,
    /// The same text, for which only what a failed link touches is worked out anew.
    QuickPlan,
    /// What the failures of single links mean, in a few lines.
    Summary,
}

pub fn lay(list: &[u8], form: Form) -> Result<Vec<u8>, Fault> {
    let topology = wire::parse(list)?;
    let network = Adjacency::of(&topology);
    let routes = Routes::new(&topology, &network);
    Ok(match form {
        Form::Plan => plan(&topology, &routes, |link| {
            repairs::protections(link, &topology, &network, &routes)
        }),
        Form::QuickPlan => {
            plan(&topology, &routes, |link| quick::protections(link, &topology, &network, &routes))
        }
        Form::Summary => Summary::of(&topology, &network, &routes).to_string().into_bytes(),
    })
}

fn plan(
    topology: &Topology,
    routes: &Routes,
    protections: impl Fn(Link) -> Vec<Protection>,
) -> Vec<u8> {
    let mut report = Report::default();
    report.places(topology);
    report.distances(topology, routes);
    report.tables(topology, routes);
    report.detours(topology, protections);
    report.into_bytes()
}
