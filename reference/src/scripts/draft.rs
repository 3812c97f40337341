//! Random scripts, drafted line by line on a network that plays each line.

use super::bad_lines::bad_lines;
use super::kind::Kind;
use super::Script;
use crate::generate::{self, Costs, Shape};
use crate::network::Network;
use crate::node::NodeId;
use crate::packet::SENDER_SEGMENTS;
use crate::random::Random;
use crate::script::play_line;
use crate::topology::{Link, Topology};
use crate::wire;

/// A random script on a random network.
pub fn any(shape: Shape, costs: Costs, random: &mut Random) -> Script {
    let topology = generate::network(shape, costs, random);
    let links = wire::emit(&topology);
    let mut draft = Draft::new(topology, random);
    draft.fill();
    let lines = draft.lines.len();
    let name = format!("{shape:?} with costs {costs:?}, {lines} lines");
    Script { name, links, text: draft.lines.concat().into() }
}

/// The lines of a script so far, and the network as they leave it.
struct Draft<'a> {
    random: &'a mut Random,
    network: Network,
    lines: Vec<String>,
    closed: Option<Link>,
    /// Whether a line has been bad.
    ended: bool,
}

impl Draft<'_> {
    fn new(topology: Topology, random: &mut Random) -> Draft<'_> {
        let network = Network::new(topology);
        Draft { random, network, lines: Vec::new(), closed: None, ended: false }
    }

    fn fill(&mut self) {
        self.some(&Kind::PACKETS, 5);
        for _ in 0..self.random.between(1..=2) {
            self.kind(Kind::CloseAny);
            self.some(&Kind::ALL, 60);
            if self.random.percent(60) {
                self.settle();
            }
        }
        self.some(&Kind::PACKETS, 5);
        if self.random.percent(20) {
            let bad = bad_lines(self.network.topology());
            let place = self.random.below(bad.len());
            self.line(bad[place].clone());
        }
        self.kind(Kind::Words);
        self.kind(Kind::State);
    }

    /// Up to so many random lines of these kinds. A bad line ends them.
    fn some(&mut self, kinds: &[Kind], most: usize) {
        for _ in 0..self.random.below(most + 1) {
            if !self.ended {
                let kind = self.random.pick(kinds);
                self.kind(kind);
            }
        }
    }

    /// Delivers and switches until nothing is left to be done.
    fn settle(&mut self) {
        while !self.ended {
            self.kind(Kind::DeliverAll);
            self.kind(Kind::OverAll);
            if self.network.messages().next().is_none() {
                return;
            }
        }
    }

    fn line(&mut self, line: String) {
        if !self.ended {
            self.ended = play_line(line.as_bytes(), &mut self.network).is_err();
        }
        self.lines.push(line + "\n");
    }

    /// A line of the kind, where there can be one.
    fn kind(&mut self, kind: Kind) {
        if let Some(line) = self.kind_text(kind) {
            self.line(line);
        }
    }

    fn kind_text(&mut self, kind: Kind) -> Option<String> {
        Some(match kind {
            Kind::Send => format!("send {}", self.order()),
            Kind::Put => format!("put {}", self.order()),
            Kind::Hop => format!("hop {}", self.packet()?),
            Kind::Run => format!("run {}", self.packet()?),
            Kind::Deliver => format!("deliver {}", self.message()?),
            Kind::Again => format!("again {}", self.message()?),
            Kind::DeliverAll => "deliver all".into(),
            Kind::Over => self.over(),
            Kind::OverAll => "over all".into(),
            Kind::Words => "words".into(),
            Kind::State => "state".into(),
            Kind::Comment => self.random.pick(&["", "# a comment", "words # the messages"]).into(),
            Kind::CloseAgain => self.close(self.closed?),
            Kind::CloseAny => self.close_any()?,
            Kind::CloseRarely if self.random.percent(20) => self.close_any()?,
            Kind::CloseRarely => return None,
        })
    }

    fn node(&mut self) -> NodeId {
        NodeId(self.random.below(self.network.topology().node_count().into()) as u8)
    }

    /// Start, destination and up to three segments.
    fn order(&mut self) -> String {
        let mut text = format!("{} {}", self.node(), self.node());
        if self.random.percent(50) {
            for _ in 0..self.random.below(SENDER_SEGMENTS + 1) {
                text += &format!(" {}", self.segment());
            }
        }
        text
    }

    /// A node, a link, or a pair of nodes that may have no link between them.
    fn segment(&mut self) -> String {
        let (a, b) = match (self.random.below(4), self.link()) {
            (0, Some(link)) => (link.lower, link.higher),
            (1, Some(link)) => (link.higher, link.lower),
            (2, _) if self.random.percent(50) => (self.node(), self.node()),
            _ => return self.node().to_string(),
        };
        if a == b {
            return a.to_string();
        }
        format!("{a}-{b}")
    }

    fn link(&mut self) -> Option<Link> {
        let links = self.network.topology().links();
        (!links.is_empty()).then(|| self.random.pick(links))
    }

    fn close(&mut self, link: Link) -> String {
        let mut ends = link.ends();
        self.random.shuffle(&mut ends);
        format!("close {} {}", ends[0], ends[1])
    }

    fn close_any(&mut self) -> Option<String> {
        let link = self.quiet_link()?;
        self.closed = Some(link);
        Some(self.close(link))
    }

    /// A link that no message is under way over.
    fn quiet_link(&mut self) -> Option<Link> {
        let quiet = |link: &&Link| {
            !self.network.messages().any(|(_, posted)| link.joins(posted.from, posted.to))
        };
        let links: Vec<Link> =
            self.network.topology().links().iter().filter(quiet).copied().collect();
        (!links.is_empty()).then(|| self.random.pick(&links))
    }

    /// A packet that has not ended; rarely any.
    fn packet(&mut self) -> Option<usize> {
        let rarely = self.random.percent(2);
        let packets = self.network.packets().iter().zip(1..);
        let open = packets.filter(|(journey, _)| rarely || journey.end().is_none());
        let numbers: Vec<usize> = open.map(|(_, number)| number).collect();
        (!numbers.is_empty()).then(|| self.random.pick(&numbers))
    }

    fn message(&mut self) -> Option<u64> {
        let numbers: Vec<u64> = self.network.messages().map(|(number, _)| number).collect();
        (!numbers.is_empty()).then(|| self.random.pick(&numbers))
    }

    /// Mostly something that is still to be switched.
    fn over(&mut self) -> String {
        let topology = self.network.topology();
        let mut open = Vec::new();
        for router in self.network.routers().iter().filter(|it| it.failed_link().is_some()) {
            let left = topology.nodes().filter(|&to| !router.switched().contains(to));
            open.extend(left.map(|to| (router.node(), to)));
        }
        let (router, destination) = if open.is_empty() || self.random.percent(20) {
            (self.node(), self.node())
        } else {
            self.random.pick(&open)
        };
        format!("over {router} {destination}")
    }
}
