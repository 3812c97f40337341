//! The processes of one network, and the messages that are carried between them.

use crate::station::Station;
use reference::messages::{LINK_DOWN, PACKET, SWITCHED};
use reference::node::NodeId;
use reference::random::Random;
use reference::topology::{Link, Topology};
use reference::wire;
use std::collections::BTreeMap;
use std::fmt::Write as _;
use std::io;
use std::path::Path;

/// What was played, as a script for `tear`, and what it should print of packets.
pub struct Play {
    pub script: String,
    pub lines: Vec<String>,
}

/// A message that was said and has not been carried for the last time.
struct Word {
    from: NodeId,
    to: NodeId,
    bytes: Vec<u8>,
}

/// The processes, and the messages under way by the numbers that `tear` gives them.
struct Hub<'a> {
    boxes: Vec<Station>,
    topology: &'a Topology,
    words: BTreeMap<usize, Word>,
    said: usize,
    play: Play,
}

pub fn play(program: &Path, topology: &Topology, random: &mut Random) -> io::Result<Play> {
    let links = wire::emit(topology);
    let nodes = NodeId::first(topology.node_count());
    let boxes = nodes.map(|node| Station::start(program, node, &links));
    let mut hub = Hub {
        boxes: boxes.collect::<io::Result<_>>()?,
        topology,
        words: BTreeMap::new(),
        said: 0,
        play: Play { script: String::new(), lines: Vec::new() },
    };
    hub.send(random)?;
    let torn = topology.links()[random.below(topology.links().len())];
    hub.close(torn)?;
    hub.send(random)?;
    while let Some(number) = hub.any_word(random) {
        hub.carry(number, random.percent(20))?;
        if random.percent(30) {
            hub.send(random)?;
        }
    }
    hub.send(random)?;
    Ok(hub.play)
}

impl Hub<'_> {
    /// Both ends are told by themselves; the lower one's messages are numbered first,
    /// and those about switching after those about the failure.
    fn close(&mut self, Link { lower, higher, .. }: Link) -> io::Result<()> {
        let down = [LINK_DOWN, lower.0, higher.0];
        let at_lower = self.boxes[lower.index()].tell(lower, &down)?;
        let at_higher = self.boxes[higher.index()].tell(higher, &down)?;
        line(&mut self.play.script, format_args!("close {lower} {higher}"));
        for kind in [LINK_DOWN, SWITCHED] {
            self.post(lower, &at_lower, kind);
            self.post(higher, &at_higher, kind);
        }
        self.switch(lower);
        self.switch(higher);
        Ok(())
    }

    /// A box switches for all that it may after each frame; `tear` is told so.
    fn switch(&mut self, node: NodeId) {
        for destination in NodeId::first(self.topology.node_count()) {
            line(&mut self.play.script, format_args!("over {node} {destination}"));
        }
    }

    fn post(&mut self, from: NodeId, written: &[(NodeId, Vec<u8>)], kind: u8) {
        for (to, bytes) in written.iter().filter(|(_, bytes)| bytes[0] == kind) {
            self.said += 1;
            self.words.insert(self.said, Word { from, to: *to, bytes: bytes.clone() });
        }
    }

    fn any_word(&self, random: &mut Random) -> Option<usize> {
        let numbers: Vec<usize> = self.words.keys().copied().collect();
        (!numbers.is_empty()).then(|| random.pick(&numbers))
    }

    fn carry(&mut self, number: usize, again: bool) -> io::Result<()> {
        let Word { from, to, bytes } = self.words.remove(&number).expect("it is under way");
        let said = self.boxes[to.index()].tell(from, &bytes)?;
        if again {
            line(&mut self.play.script, format_args!("again {number}"));
            self.words.insert(number, Word { from, to, bytes });
        } else {
            line(&mut self.play.script, format_args!("deliver {number}"));
        }
        self.post(to, &said, LINK_DOWN);
        self.post(to, &said, SWITCHED);
        self.switch(to);
        Ok(())
    }

    /// A packet with up to three node segments goes from box to box to its end.
    fn send(&mut self, random: &mut Random) -> io::Result<()> {
        let nodes = usize::from(self.topology.node_count());
        let mut any = || NodeId(random.below(nodes) as u8);
        let (mut at, destination) = (any(), any());
        let segments: Vec<NodeId> = (0..any().index() % 4).map(|_| any()).collect();
        let mut text = format!("send {at} {destination}");
        let mut packet = vec![PACKET, destination.0, 255, 255, segments.len() as u8];
        for node in segments {
            packet.extend([0, node.0]);
            let _ = write!(text, " {node}");
        }
        line(&mut self.play.script, format_args!("{text}"));
        let mut path = format!("packet {}: {at}", self.play.lines.len() + 1);
        let (mut from, mut cost) = (at, 0);
        let end = loop {
            match self.boxes[at.index()].tell(from, &packet)?.pop() {
                None => break "dropped",
                Some((to, _)) if to == at => break "arrived",
                Some((to, bytes)) => {
                    cost += u64::from(self.cost(at, to));
                    let _ = write!(path, " {to}");
                    (from, at, packet) = (at, to, bytes);
                }
            }
        };
        self.play.lines.push(match end {
            "arrived" => format!("{path} arrived cost {cost}"),
            _ => format!("{path} dropped"),
        });
        Ok(())
    }

    fn cost(&self, a: NodeId, b: NodeId) -> u16 {
        let link = self.topology.links().iter().find(|link| link.joins(a, b));
        link.map_or(0, |link| link.cost)
    }
}

fn line(script: &mut String, text: std::fmt::Arguments<'_>) {
    let _ = writeln!(script, "{text}");
}
