//! Lines that can't be played.

use super::ring;
use reference::network::Network;
use reference::script::play_line;
use reference::tear::tear;

#[test]
fn bad_lines() {
    // The last line of each is bad.
    let scripts = [
        "jump",
        "Close 0 1",
        "close",
        "close 0",
        "close 0 1 2",
        "close 0 4",
        "close 0 2",
        "close 0 0",
        "close 0 x",
        "close 0 +1",
        "words all",
        "deliver",
        "deliver 1",
        "deliver x",
        "deliver all all",
        "close 0 1\ndeliver 3",
        "close 0 1\ndeliver 0",
        "close 0 1\ndeliver 1\ndeliver 1",
        "close 0 1\ndeliver 1\nagain 1",
        "again all",
        "again",
        "over",
        "over 0",
        "over 0 4",
        "over 4 0",
        "over 0 1 2",
        "over all 1",
        "send",
        "send 0",
        "send 0 4",
        "send 0 1 4",
        "send 0 1 2-4",
        "send 0 1 2-2",
        "send 0 1 2-",
        "send 0 1 -2",
        "send 0 1 1-2-3",
        "send 0 1 1 1 1 1",
        "put 0 1 1 1 1 1",
        "put 0 1 0-0",
        "hop",
        "hop 1",
        "hop 0",
        "put 0 1\nhop 2",
        "send 0 1\nhop 1",
        "send 0 1\nrun 1",
        "put 0 1\nrun 1\nrun 1",
        "put 0 0\nhop 1\nhop 1",
        "run 1 1",
        "state all",
        "close 0 1\nclose 2 1",
        "close 0 1\n\n# two\nclose 3 0",
        "words\n\u{e9}",
        "deliver 99999999999999999999999",
    ];
    for script in scripts {
        let number = script.lines().count();
        let played = tear(ring(), format!("{script}\nstate\n").as_bytes());
        let bad = played.end.expect_err(script);
        assert_eq!(bad.number, number, "{script:?}");
        assert!(bad.to_string().starts_with(&format!("line {number}: ")), "{script:?}");
        assert!(!played.text.contains("router"), "{script:?}");
    }
}

#[test]
fn what_was_printed_before_a_bad_line_stays() {
    let played = tear(ring(), b"send 0 1\nwords\nclose 0 2\nwords\n");
    assert_eq!(played.text, "packet 1: 0 1 arrived cost 1\nno words\n");
    assert_eq!(played.end.map_err(|bad| bad.number), Err(3));
}

#[test]
fn a_refused_failure_changes_neither_end() {
    // 1 still switches for 0-1. 2 doesn't know of it, and would take 1-2.
    let mut network = Network::new(ring());
    play_line(b"close 0 1", &mut network).unwrap();
    let before = play_line(b"state", &mut network).unwrap();
    for line in ["close 1 2", "close 2 1", "close 0 3", "close 0 2"] {
        assert!(play_line(line.as_bytes(), &mut network).is_err(), "{line}");
        assert_eq!(play_line(b"state", &mut network).unwrap(), before, "{line}");
    }
}
