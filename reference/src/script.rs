//! The lines of a script, and what each does to a network.

use crate::network::{Journey, Network, Posted};
use crate::node::NodeId;
use crate::packet::{Segment, SENDER_SEGMENTS};
use crate::router::{Message, Refusal, Router, Switching};
use crate::topology::Topology;
use std::fmt::{self, Display};

/// A line that can't be played. Lines are counted from 1.
#[derive(Clone, Debug, PartialEq, Eq)]
pub struct BadLine {
    pub number: usize,
    pub why: String,
}

impl fmt::Display for BadLine {
    fn fmt(&self, f: &mut fmt::Formatter<'_>) -> fmt::Result {
        write!(f, "line {}: {}", self.number, self.why)
    }
}

#[derive(Clone, Debug, PartialEq, Eq)]
enum Command {
    Close { a: NodeId, b: NodeId },
    Words,
    Deliver { message: u64 },
    DeliverAll,
    Again { message: u64 },
    Over { router: NodeId, destination: NodeId },
    OverAll,
    Send(Order),
    Put(Order),
    Hop { packet: usize },
    Run { packet: usize },
    State,
}

/// A packet that is asked for.
#[derive(Clone, Debug, PartialEq, Eq)]
struct Order {
    start: NodeId,
    destination: NodeId,
    segments: Vec<Segment>,
}

/// Plays one line. The answer is what it prints, or why it is bad.
pub fn play_line(line: &[u8], network: &mut Network) -> Result<String, String> {
    let code = line.split(|&byte| byte == b'#').next().unwrap_or_default();
    let code = std::str::from_utf8(code).map_err(|_| "not a text")?;
    let words: Vec<&str> = code.split_ascii_whitespace().collect();
    if words.is_empty() {
        return Ok(String::new());
    }
    play(parse(&words, network.topology())?, network)
}

fn parse(words: &[&str], topology: &Topology) -> Result<Command, String> {
    let node = |word: &str| node(word, topology);
    match *words {
        ["close", a, b] => Ok(Command::Close { a: node(a)?, b: node(b)? }),
        ["words"] => Ok(Command::Words),
        ["deliver", "all"] => Ok(Command::DeliverAll),
        ["deliver", message] => Ok(Command::Deliver { message: number(message)? }),
        ["again", message] => Ok(Command::Again { message: number(message)? }),
        ["over", "all"] => Ok(Command::OverAll),
        ["over", router, destination] => {
            Ok(Command::Over { router: node(router)?, destination: node(destination)? })
        }
        ["send", ref rest @ ..] => Ok(Command::Send(order(rest, topology)?)),
        ["put", ref rest @ ..] => Ok(Command::Put(order(rest, topology)?)),
        ["hop", packet] => Ok(Command::Hop { packet: number(packet)? }),
        ["run", packet] => Ok(Command::Run { packet: number(packet)? }),
        ["state"] => Ok(Command::State),
        _ => Err("unknown line".into()),
    }
}

fn order(words: &[&str], topology: &Topology) -> Result<Order, String> {
    let [start, destination, segments @ ..] = words else {
        return Err("no start and destination".into());
    };
    if segments.len() > SENDER_SEGMENTS {
        return Err(format!("more than {SENDER_SEGMENTS} segments"));
    }
    Ok(Order {
        start: node(start, topology)?,
        destination: node(destination, topology)?,
        segments: segments.iter().map(|word| segment(word, topology)).collect::<Result<_, _>>()?,
    })
}

fn segment(word: &str, topology: &Topology) -> Result<Segment, String> {
    let Some((from, to)) = word.split_once('-') else {
        return node(word, topology).map(Segment::Node);
    };
    let (from, to) = (node(from, topology)?, node(to, topology)?);
    if from == to {
        return Err(format!("segment {word} goes from a node to itself"));
    }
    Ok(Segment::Link { from, to })
}

fn node(word: &str, topology: &Topology) -> Result<NodeId, String> {
    let nodes = topology.node_count();
    let below = number(word).ok().filter(|&number: &u8| number < nodes);
    below.map(NodeId).ok_or_else(|| format!("node {word} is not below {nodes}"))
}

/// Digits only: no sign.
fn number<T: std::str::FromStr>(word: &str) -> Result<T, String> {
    let digits = !word.is_empty() && word.bytes().all(|byte| byte.is_ascii_digit());
    let number = digits.then(|| word.parse().ok()).flatten();
    number.ok_or_else(|| format!("{word:?} is not a number, or too great"))
}

fn play(command: Command, network: &mut Network) -> Result<String, String> {
    match command {
        Command::Close { a, b } => match network.close(a, b) {
            Ok(link) => Ok(format!("closed {link}\n")),
            Err(refusal) => Err(format!("link {a}-{b} {}", refusal_text(refusal))),
        },
        Command::Words => Ok(words_text(network)),
        Command::Deliver { message } => heard(message, network.deliver(message)),
        Command::DeliverAll => deliver_all(network),
        Command::Again { message } => heard(message, network.repeat(message)),
        Command::Over { router, destination } => {
            let switching = network.switch(router, destination);
            Ok(switching_text(router, destination, switching))
        }
        Command::OverAll => {
            network.switch_all();
            Ok(String::new())
        }
        Command::Put(Order { start, destination, segments }) => {
            let packet = network.put(start, destination, &segments);
            Ok(format!("packet {packet} at {start}\n"))
        }
        Command::Send(Order { start, destination, segments }) => {
            let packet = network.put(start, destination, &segments);
            packet_text(packet, network.run(packet))
        }
        Command::Hop { packet } => packet_text(packet, network.hop(packet)),
        Command::Run { packet } => packet_text(packet, network.run(packet)),
        Command::State => Ok(state_text(network)),
    }
}

fn refusal_text(refusal: Refusal) -> &'static str {
    match refusal {
        Refusal::UnknownLink => "isn't in the list (4)",
        Refusal::SecondFailure => "fails while an end switches for another (5)",
        Refusal::NotPending => "isn't waited for (6)",
    }
}

fn words_text(network: &Network) -> String {
    let texts: Vec<String> = network.messages().map(|(k, posted)| word_text(k, posted)).collect();
    if texts.is_empty() {
        return "no words\n".into();
    }
    texts.concat()
}

fn word_text(number: u64, Posted { from, to, message }: Posted) -> String {
    match message {
        Message::LinkDown { link } => format!("{number}: {from}>{to} closed {link}\n"),
        Message::Switched { destination, link } => {
            format!("{number}: {from}>{to} over {destination} {link}\n")
        }
    }
}

/// What is printed when a message has arrived: nothing of Switched messages
/// that nobody waits for.
fn heard(number: u64, answer: Option<Result<(), Refusal>>) -> Result<String, String> {
    match answer {
        None => Err(format!("message {number} is not under way")),
        Some(Ok(()) | Err(Refusal::NotPending)) => Ok(String::new()),
        Some(Err(refusal)) => Ok(format!("word {number} refused {}\n", refusal.number())),
    }
}

fn deliver_all(network: &mut Network) -> Result<String, String> {
    let mut text = String::new();
    loop {
        let first = network.messages().next();
        let Some((number, _)) = first else {
            return Ok(text);
        };
        text += &heard(number, network.deliver(number))?;
    }
}

fn switching_text(router: NodeId, destination: NodeId, switching: Switching) -> String {
    match switching {
        Switching::Nothing | Switching::Done(_) => String::new(),
        Switching::Waits(pending) => {
            format!("over {router} {destination}: waits for {}\n", joined(pending))
        }
    }
}

fn packet_text(number: usize, journey: Option<&Journey>) -> Result<String, String> {
    let journey = journey.ok_or_else(|| format!("packet {number} is not under way"))?;
    let Some(end) = journey.end() else {
        return Ok(format!("packet {number} at {}\n", journey.place()));
    };
    let end = match end {
        Ok(()) => "arrived".into(),
        Err(drop) => format!("dropped {}", drop.number()),
    };
    let path = joined(journey.path());
    Ok(format!("packet {number}: {path} {end} cost {}\n", journey.cost()))
}

fn state_text(network: &Network) -> String {
    network.routers().iter().map(|router| router_text(router, network.topology())).collect()
}

fn router_text(router: &Router, topology: &Topology) -> String {
    let waits = topology.nodes().flat_map(|destination| {
        let pending = router.pending(destination);
        pending.map(move |neighbour| format!("{destination}<{neighbour}"))
    });
    let table = topology.nodes().map(|destination| match router.next_hop(destination) {
        None => "-".into(),
        Some(next) => next.to_string(),
    });
    format!(
        "router {}: down {}; switched {}; waits {}; table {}\n",
        router.node(),
        or_none(router.failed_link()),
        or_none(router.switched()),
        or_none(waits),
        or_none(table),
    )
}

fn or_none<T: Display>(items: impl IntoIterator<Item = T>) -> String {
    let text = joined(items);
    if text.is_empty() {
        return "none".into();
    }
    text
}

fn joined<T: Display>(items: impl IntoIterator<Item = T>) -> String {
    items.into_iter().map(|item| item.to_string()).collect::<Vec<_>>().join(" ")
}
