//! Scripts that are the same in every comparison, on a ring of four nodes.

use super::bad_lines::bad_lines;
use super::Script;
use crate::node::NodeId;
use crate::topology::{Link, Topology};
use crate::wire;

pub fn fixed() -> Vec<Script> {
    let texts: [(&str, &[u8]); 20] = [
        ("nothing", b""),
        ("an empty line", b"\n"),
        ("comments", b"# state\n\n  # words\nwords # state\n"),
        ("a comment right behind a word", b"words#state\nstate#\n"),
        ("no newline at the end", b"words\nsend 3 1"),
        ("all at once", b"close 1 0\ndeliver all\nover all\ndeliver all\nover all\nstate\n"),
        ("the same failure twice", b"close 0 1\nclose 1 0\nwords\nstate\n"),
        ("failures far apart", b"close 0 1\nclose 2 3\nwords\ndeliver all\nover all\nstate\n"),
        ("a second failure of one end", b"close 0 1\nstate\nclose 1 2\nstate\n"),
        ("messages by number", b"close 0 1\nagain 1\nwords\ndeliver 1\ndeliver 2\nwords\nstate\n"),
        ("blanks of all kinds", b"\twords \r\n\x0cstate\r\n  send\t3  1 \n \r\n"),
        ("a vertical tab", b"words\nwords\x0b\nstate\n"),
        ("a blank beyond ASCII", b"words\nwords\xc2\xa0\nstate\n"),
        ("a zero byte", b"words\nwords\0\nstate\n"),
        ("a list of links in place of a script", b"\x01\x04\0\x01\0\x01\0\x01"),
        ("no text", b"words\nwords \xff\nstate\n"),
        ("no text in a comment", b"words # \xff\xc3\nstate\n"),
        ("leading zeros", b"close 000 01\ndeliver 0002\nput 003 1 02 2-01\nhop 0001\nstate\n"),
        ("a sign", b"words\nsend +0 1\nstate\n"),
        ("digits beyond ASCII", b"words\nsend \xd9\xa0 1\nstate\n"),
    ];
    let links = wire::emit(&ring_of_four());
    let script = |(name, text): (&str, &[u8])| Script {
        name: name.into(),
        links: links.clone(),
        text: text.into(),
    };
    texts.map(script).into()
}

/// Each bad line after and before good ones.
pub fn with_bad_lines() -> Vec<Script> {
    let ring = ring_of_four();
    let script = |bad: String| Script {
        name: format!("bad line {bad:?}"),
        links: wire::emit(&ring),
        text: format!("close 0 1\nsend 0 2\n\nwords\n{bad}\nstate\n").into(),
    };
    bad_lines(&ring).into_iter().map(script).collect()
}

fn ring_of_four() -> Topology {
    let mut ring = Topology::new(4).expect("1 to 64 nodes");
    for (lower, higher) in [(0, 1), (0, 3), (1, 2), (2, 3)] {
        let link = Link { lower: NodeId(lower), higher: NodeId(higher), cost: 1 };
        ring.push(link).expect("links in rising order");
    }
    ring
}
