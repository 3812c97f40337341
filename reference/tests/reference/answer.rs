//! Runs held against what they should be.

use reference::answer::{difference, tear_difference, Run};
use reference::fault::Fault;
use reference::script::BadLine;
use reference::tear::Played;

#[test]
fn differences_are_seen() {
    let lawful = Ok(b"places 1\n0: 0\n".to_vec());
    let refused = Err(Fault::UnknownKind { kind: 7 });
    // A case: what is expected; status, standard output and standard error of
    // the run; what the difference says.
    let cases = [
        ("the text", &lawful, Some(0), "places 1\n0: 0\n", "", None),
        ("another line", &lawful, Some(0), "places 1\n0: 1\n", "", Some("line 2:")),
        ("a line less", &lawful, Some(0), "places 1\n", "", Some("line 2:")),
        ("a line more", &lawful, Some(0), "places 1\n0: 0\n\n", "", Some("line 3:")),
        ("no newline at the end", &lawful, Some(0), "places 1\n0: 0", "", Some("line 2:")),
        ("a warning", &lawful, Some(0), "places 1\n0: 0\n", "slow\n", Some("a lawful list")),
        ("status 1", &lawful, Some(1), "places 1\n0: 0\n", "", Some("status 1")),
        ("killed", &lawful, None, "", "", Some("status none")),
        ("a refusal", &refused, Some(1), "", "fault 1: other words\n", None),
        ("another fault", &refused, Some(1), "", "fault 2: kind\n", Some("standard error")),
        ("a longer number", &refused, Some(1), "", "fault 10: kind\n", Some("standard error")),
        ("no line", &refused, Some(1), "", "", Some("standard error")),
        ("two lines", &refused, Some(1), "", "fault 1: a\nb\n", Some("standard error")),
        ("an unended line", &refused, Some(1), "", "fault 1: a", Some("standard error")),
        ("half an answer", &refused, Some(1), "places 1\n", "fault 1: a\n", Some("fault 1, but")),
        ("status 0", &refused, Some(0), "", "fault 1: a\n", Some("status 0")),
    ];
    for (name, expected, status, stdout, stderr, start) in cases {
        let run = Run { status, stdout: stdout.into(), stderr: stderr.into() };
        let found = difference(expected, &run);
        match (found, start) {
            (None, None) => {}
            (Some(found), Some(start)) if found.starts_with(start) => {}
            (found, _) => panic!("{name}: {found:?}"),
        }
    }
}

#[test]
fn differences_of_scripts_are_seen() {
    let bad = BadLine { number: 5, why: "no".into() };
    let whole = Ok(Played { text: "no words\n".into(), end: Ok(()) });
    let stopped = Ok(Played { text: "no words\n".into(), end: Err(bad) });
    let refused = Err(Fault::UnknownKind { kind: 7 });
    // A case: as above.
    let cases = [
        ("the text", &whole, Some(0), "no words\n", "", None),
        ("another line", &whole, Some(0), "words\n", "", Some("line 1:")),
        ("status 1", &whole, Some(1), "no words\n", "", Some("status 1")),
        ("a bad line", &stopped, Some(1), "no words\n", "line 5: other words\n", None),
        ("another text", &stopped, Some(1), "", "line 5: a\n", Some("line 1:")),
        ("another number", &stopped, Some(1), "no words\n", "line 51: a\n", Some("standard error")),
        ("two lines", &stopped, Some(1), "no words\n", "line 5: a\nb\n", Some("standard error")),
        ("status 0", &stopped, Some(0), "no words\n", "line 5: a\n", Some("status 0")),
        ("a refusal", &refused, Some(1), "", "fault 1: a\n", None),
        ("another fault", &refused, Some(1), "", "fault 2: a\n", Some("standard error")),
    ];
    for (name, expected, status, stdout, stderr, start) in cases {
        let run = Run { status, stdout: stdout.into(), stderr: stderr.into() };
        let found = tear_difference(expected, &run);
        match (found, start) {
            (None, None) => {}
            (Some(found), Some(start)) if found.starts_with(start) => {}
            (found, _) => panic!("{name}: {found:?}"),
        }
    }
}
