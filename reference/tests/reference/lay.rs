//! The printed text, compared whole.

use crate::support::topology;
use reference::lay::{lay, Form};
use reference::topology::Topology;
use reference::wire::emit;

fn text(network: &Topology, form: Form) -> String {
    String::from_utf8(lay(&emit(network), form).unwrap()).unwrap()
}

#[test]
fn plans() {
    let cases = [
        ("one node", topology(1, &[]), "places 1\ndistances\n0: 0\ntables\n0: -\ndetours\n"),
        (
            "a pair and a node apart",
            topology(3, &[(0, 2, 65_535)]),
            "places 3\n\
             distances\n0: 0 - 65535\n1: - 0 -\n2: 65535 - 0\n\
             tables\n0: - - 2\n1: - - -\n2: 0 - -\n\
             detours\n0-2: apart unused apart\n",
        ),
        (
            "ring of four",
            topology(4, &[(0, 1, 1), (0, 3, 1), (1, 2, 1), (2, 3, 1)]),
            "places 4\n\
             distances\n0: 0 1 2 1\n1: 1 0 1 2\n2: 2 1 0 1\n3: 1 2 1 0\n\
             tables\n0: - 1 1 3\n1: 0 - 2 0\n2: 1 1 - 3\n3: 0 0 2 -\n\
             detours\n\
             0-1: 1:2-3 0:3-2 0:3-2 1:2-3\n\
             0-3: 3:2-1 3:2-1 unused 0:2-3\n\
             1-2: 2:3-0 2:3-0 1:3-2 unused\n\
             2-3: unused unused 3:1-2 2:0-3\n",
        ),
    ];
    for (name, network, expected) in cases {
        assert_eq!(text(&network, Form::Plan), expected, "{name}");
    }
}

#[test]
fn summaries() {
    let cases = [
        (
            "one node",
            topology(1, &[]),
            "places 1\nlinks 0\nrepaired 0 of 0\ncut off none\nlongest none\n",
        ),
        (
            "three nodes without a link",
            topology(3, &[]),
            "places 3\nlinks 0\nrepaired 0 of 0\ncut off none\nlongest none\n",
        ),
        (
            "two nodes",
            topology(2, &[(0, 1, 7)]),
            "places 2\nlinks 1\nrepaired 0 of 2\n\
             cut off 0-1: 0 from 1\n\
             cut off 0-1: 1 from 0\n\
             longest none\n",
        ),
        (
            "a star with its middle at 1",
            topology(4, &[(0, 1, 1), (1, 2, 1), (1, 3, 1)]),
            "places 4\nlinks 3\nrepaired 0 of 12\n\
             cut off 0-1: 0 from 1 2 3\n\
             cut off 0-1: 1 from 0\n\
             cut off 1-2: 1 from 2\n\
             cut off 1-2: 2 from 0 1 3\n\
             cut off 1-3: 1 from 3\n\
             cut off 1-3: 3 from 0 1 2\n\
             longest none\n",
        ),
        (
            "a triangle and a node behind it",
            topology(4, &[(0, 1, 1), (0, 2, 1), (1, 2, 1), (2, 3, 1)]),
            "places 4\nlinks 4\nrepaired 8 of 12\n\
             cut off 2-3: 2 from 3\n\
             cut off 2-3: 3 from 0 1 2\n\
             longest 0-1: 1 to 0 costs 2, was 1\n",
        ),
        (
            "ring of four",
            topology(4, &[(0, 1, 1), (0, 3, 1), (1, 2, 1), (2, 3, 1)]),
            "places 4\nlinks 4\nrepaired 12 of 12\ncut off none\n\
             longest 0-1: 1 to 0 costs 3, was 1\n",
        ),
        (
            "ring of four with unequal costs",
            topology(4, &[(0, 1, 4), (0, 3, 1), (1, 2, 3), (2, 3, 2)]),
            "places 4\nlinks 4\nrepaired 12 of 12\ncut off none\n\
             longest 0-3: 3 to 0 costs 9, was 1\n",
        ),
        (
            "a link that serves no path",
            topology(3, &[(0, 1, 1), (0, 2, 9), (1, 2, 1)]),
            "places 3\nlinks 3\nrepaired 6 of 6\ncut off none\n\
             longest 0-1: 1 to 0 costs 10, was 1\n",
        ),
    ];
    for (name, network, expected) in cases {
        assert_eq!(text(&network, Form::Summary), expected, "{name}");
    }
}

#[test]
fn refusals_are_the_same_in_both_forms() {
    let cases: [(&str, &[u8]); 3] = [
        ("unknown kind", &[2, 4, 0, 0]),
        ("no nodes", &[1, 0, 0, 0]),
        ("from a node to itself", &[1, 4, 0, 1, 1, 1, 0, 1]),
    ];
    for (name, list) in cases {
        let plan = lay(list, Form::Plan);
        assert!(plan.is_err(), "{name}");
        assert_eq!(lay(list, Form::Summary), plan, "{name}");
    }
}
