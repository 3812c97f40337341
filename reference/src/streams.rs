//! Streams of frames on which a `box` program is compared with this one.

use crate::damage::{byte_changes, cuts, Damage};
use crate::generate::{self, Costs, Shape};
use crate::messages::{emit_packet, emit_word, Word};
use crate::node::NodeId;
use crate::packet::{Packet, Segment, MAX_SEGMENTS};
use crate::plan::Plan;
use crate::random::Random;
use crate::topology::{Link, Topology};
use crate::wire;

/// The number of a router, and the bytes on its standard input.
pub struct Stream {
    pub name: String,
    pub node: NodeId,
    pub bytes: Vec<u8>,
}

/// A frame: the node that it comes from, and the message.
type Frame = (NodeId, Vec<u8>);

/// All streams of one comparison, `count` random ones among them.
pub fn all(count: usize, random: &mut Random) -> Vec<Stream> {
    let mut streams = fixed(random);
    streams.extend(framing(random));
    let kinds = Shape::ALL.iter().flat_map(|shape| Costs::ALL.map(|costs| (*shape, costs)));
    for (position, (shape, costs)) in kinds.cycle().take(count).enumerate() {
        let mut draft = Draft::new(shape, costs, random);
        draft.fill();
        let how = if position % 2 == 1 { draft.damage() } else { "" };
        streams.push(draft.stream(format!("{shape:?} with costs {costs:?}{how}")));
    }
    streams
}

/// Every message of a small scenario with every cut, and with every byte changed to
/// every other value, each as a frame of its own.
fn fixed(random: &mut Random) -> Vec<Stream> {
    let mut streams = vec![
        Stream { name: "nothing".into(), node: NodeId(0), bytes: Vec::new() },
        Stream { name: "nothing at the highest node".into(), node: NodeId(63), bytes: Vec::new() },
    ];
    for costs in Costs::ALL {
        let mut draft = Draft::new(Shape::Ring, costs, random);
        draft.fill();
        draft.frames.truncate(40);
        let lawful = std::mem::take(&mut draft.frames);
        for (from, message) in &lawful {
            let damaged = cuts(message).chain(byte_changes(message).step_by(7));
            draft.frames.extend(damaged.map(|message| (*from, message)));
            let longer = [&message[..], &[0]].concat();
            draft.frames.push((*from, longer));
            draft
                .frames
                .extend((0..=u8::MAX).step_by(5).map(|from| (NodeId(from), message.clone())));
            draft.frames.push((*from, message.clone()));
        }
        streams.push(draft.stream(format!("every message damaged, costs {costs:?}")));
        for node in [3, 62, 63].map(NodeId) {
            let name = format!("the same at another node, {node}");
            streams.push(Stream { name, node, bytes: bytes_of(&draft.frames) });
        }
    }
    streams
}

/// A short stream cut at every byte, and with every byte changed in some ways.
fn framing(random: &mut Random) -> Vec<Stream> {
    let ring = generate::network(Shape::Ring, Costs::Ties, random);
    let mut draft = Draft::of(ring, random);
    draft.frames.truncate(1);
    draft.fail();
    draft.frames.truncate(6);
    draft.packets(3);
    let node = draft.node;
    let whole = bytes_of(&draft.frames);
    let list = 3 + draft.frames[0].1.len();
    let mut streams: Vec<Stream> =
        cuts(&whole).map(|bytes| Stream { name: "cut".into(), node, bytes }).collect();
    for position in (0..8).chain(list..whole.len()) {
        for value in [0, 1, 2, 255, whole[position] ^ 1, whole[position] ^ 128] {
            let mut bytes = whole.clone();
            bytes[position] = value;
            streams.push(Stream { name: format!("byte {position} is {value}"), node, bytes });
        }
    }
    streams
}

fn bytes_of(frames: &[Frame]) -> Vec<u8> {
    let mut bytes = Vec::new();
    for (from, message) in frames {
        bytes.push(from.0);
        bytes.extend((message.len() as u16).to_be_bytes());
        bytes.extend(message);
    }
    bytes
}

/// A stream in the making. `plan` is of the links that have not failed.
struct Draft<'a> {
    random: &'a mut Random,
    node: NodeId,
    list: Vec<u8>,
    plan: Plan,
    gone: Vec<Link>,
    frames: Vec<Frame>,
}

impl<'a> Draft<'a> {
    fn new(shape: Shape, costs: Costs, random: &'a mut Random) -> Draft<'a> {
        let topology = generate::network(shape, costs, random);
        Draft::of(topology, random)
    }

    /// With the list of links.
    fn of(topology: Topology, random: &'a mut Random) -> Draft<'a> {
        let node = NodeId(random.below(topology.node_count().into()) as u8);
        let list = wire::emit(&topology);
        let frames = vec![(node, list.clone())];
        Draft { random, node, list, plan: Plan::of(topology), gone: Vec::new(), frames }
    }

    fn stream(&self, name: String) -> Stream {
        Stream { name, node: self.node, bytes: bytes_of(&self.frames) }
    }

    fn fill(&mut self) {
        self.packets(10);
        for _ in 0..self.random.between(1..=3) {
            self.fail();
            self.packets(5);
            if self.random.percent(15) {
                self.frames.push((self.node, self.list.clone()));
            }
        }
        self.packets(5);
    }

    /// A link fails: the router hears of it and of those that switch, in any order,
    /// with packets and messages that don't belong there in between.
    fn fail(&mut self) {
        let links = self.plan.topology().links();
        if links.is_empty() {
            return;
        }
        let link = self.random.pick(links);
        let mut words = self.words(link);
        if self.random.percent(70) {
            self.random.shuffle(&mut words);
        }
        for word in words {
            self.frames.push(word);
            if self.random.percent(20) {
                let strange = self.strange(link);
                self.frames.push(strange);
            }
            if self.random.percent(25) {
                self.packets(2);
            }
        }
        self.gone.push(link);
        self.plan = self.plan.without(link);
    }

    /// What the router hears of a failure, with some repeats.
    fn words(&mut self, link: Link) -> Vec<Frame> {
        let (lower, higher) = (link.lower, link.higher);
        let down = emit_word(Word::LinkDown { lower, higher });
        let mut words = vec![(self.node, down.clone())];
        for neighbour in self.plan.neighbours(self.node) {
            if self.random.percent(50) {
                words.push((neighbour, down.clone()));
            }
        }
        if self.random.percent(30) {
            words.remove(0);
        }
        for destination in self.plan.topology().nodes() {
            for from in self.plan.upstream(link, self.node, destination) {
                let said = emit_word(Word::Switched { from, destination, lower, higher });
                words.push((from, said.clone()));
                if self.random.percent(10) {
                    words.push((from, said));
                }
            }
        }
        words
    }

    /// A message that is forged, for another link, or for one that has gone.
    fn strange(&mut self, link: Link) -> Frame {
        let links: Vec<Link> = match self.random.below(3) {
            0 => vec![link],
            1 => self.gone.clone(),
            _ => self.plan.topology().links().to_vec(),
        };
        let (lower, higher) = match links[..] {
            [] => (self.any(), self.any()),
            _ => {
                let link = self.random.pick(&links);
                (link.lower, link.higher)
            }
        };
        let word = if self.random.percent(40) {
            Word::LinkDown { lower, higher }
        } else {
            Word::Switched { from: self.any(), destination: self.any(), lower, higher }
        };
        let from = match word {
            Word::Switched { from, .. } if self.random.percent(60) => from,
            _ => self.any(),
        };
        (from, emit_word(word))
    }

    fn any(&mut self) -> NodeId {
        NodeId(self.random.below(self.plan.topology().node_count().into()) as u8)
    }

    /// Up to so many packets of the router's sender and of neighbours.
    fn packets(&mut self, most: usize) {
        for _ in 0..=self.random.below(most) {
            let from = if self.random.percent(40) { self.node } else { self.any() };
            let packet = self.packet();
            self.frames.push((from, emit_packet(&packet)));
        }
    }

    /// With 0 to 5 segments.
    fn packet(&mut self) -> Packet {
        let count = self.random.below(MAX_SEGMENTS + 1);
        let segments: Vec<Segment> = (0..count).map(|_| self.segment()).collect();
        let hops = self.random.pick(&[0, 1, 2, 255, 256, 65_534, 65_535]);
        Packet::new(self.any(), &segments).with_hop_limit(hops)
    }

    /// Often the router itself, or a link from it.
    fn segment(&mut self) -> Segment {
        if self.random.percent(50) {
            let node = if self.random.percent(50) { self.node } else { self.any() };
            return Segment::Node(node);
        }
        let from = if self.random.percent(60) { self.node } else { self.any() };
        Segment::Link { from, to: self.any() }
    }

    /// Frames forged, repeated, moved, left out, or changed in their bytes.
    fn damage(&mut self) -> &'static str {
        for _ in 0..=self.random.below(12) {
            let place = self.random.below(self.frames.len());
            match self.random.below(6) {
                0 => self.frames[place].0 = NodeId(self.random.byte()),
                1 => self.frames.push(self.frames[place].clone()),
                2 => {
                    let other = self.random.below(self.frames.len());
                    self.frames.swap(place, other);
                }
                3 if self.frames.len() > 1 => {
                    self.frames.remove(place);
                }
                _ => {
                    let damage = self.random.pick(&Damage::ALL);
                    damage.apply(&mut self.frames[place].1, self.random);
                }
            }
        }
        ", damaged"
    }
}

/// The list of links and then `count` packets of the sender at `node`, to all nodes
/// in turn, with none to three node segments: what a benchmark runs on.
pub fn packets(list: &[u8], nodes: u8, node: NodeId, count: u32) -> Vec<u8> {
    let mut frames = vec![(node, list.to_vec())];
    for number in 0..count {
        let nth = |step: u32| NodeId((number.wrapping_mul(step) % u32::from(nodes)) as u8);
        let segments = [3, 5, 7].map(|step| Segment::Node(nth(step)));
        let segments = &segments[..number as usize % (segments.len() + 1)];
        frames.push((node, emit_packet(&Packet::new(nth(1), segments))));
    }
    bytes_of(&frames)
}
