//! What scripts print.

use super::ring;
use crate::support::topology;
use reference::tear::tear;
use reference::topology::Topology;

/// Two triangles joined by the bridge 2-3.
fn bridged() -> Topology {
    let links = [(0, 1, 1), (0, 2, 1), (1, 2, 1), (2, 3, 5), (3, 4, 1), (3, 5, 1), (4, 5, 1)];
    topology(6, &links)
}

#[test]
fn scripts() {
    // A case: name, network, script, and what it prints.
    let cases = [
        ("nothing", ring(), "", ""),
        ("empty lines and comments", ring(), "\n  \n# state\n  # state\nwords # a", "no words\n"),
        (
            "past the failed link",
            ring(),
            "close 0 1\nsend 0 1",
            "closed 0-1\npacket 1: 0 3 2 1 arrived cost 3\n",
        ),
        (
            "back where it came from",
            ring(),
            "close 1 0\nsend 3 1",
            "closed 0-1\npacket 1: 3 0 3 2 1 arrived cost 4\n",
        ),
        (
            "to itself",
            ring(),
            "send 2 2\nput 2 2\nhop 2",
            "packet 1: 2 arrived cost 0\npacket 2 at 2\npacket 2: 2 arrived cost 0\n",
        ),
        (
            "segments",
            ring(),
            "send 0 0 2\nsend 0 1 0 0 2-3\nsend 0 1 2 2-3\nsend 0 2 3-2",
            "packet 1: 0 1 2 1 0 arrived cost 4\n\
             packet 2: 0 dropped 9 cost 0\n\
             packet 3: 0 1 2 3 0 1 arrived cost 5\n\
             packet 4: 0 dropped 9 cost 0\n",
        ),
        (
            "segments past the failed link",
            ring(),
            "close 0 1\nsend 3 0 1\nsend 0 3 1 1-2 2-3\nsend 1 3 0 0-1\nsend 3 3 1 0 1",
            "closed 0-1\n\
             packet 1: 3 0 3 2 1 2 3 0 arrived cost 7\n\
             packet 2: 0 3 2 1 2 3 arrived cost 5\n\
             packet 3: 1 2 3 0 dropped 9 cost 3\n\
             packet 4: 3 0 3 2 1 2 3 0 3 2 1 2 3 arrived cost 12\n",
        ),
        ("a segment that is no link", ring(), "send 0 2 0-2", "packet 1: 0 dropped 9 cost 0\n"),
        (
            "a bridge",
            bridged(),
            "close 2 3\nsend 0 4\nsend 3 0\nsend 0 1 2 3\nsend 0 1 2-3",
            "closed 2-3\n\
             packet 1: 0 2 dropped 7 cost 1\n\
             packet 2: 3 dropped 7 cost 0\n\
             packet 3: 0 2 dropped 7 cost 1\n\
             packet 4: 0 dropped 9 cost 0\n",
        ),
        (
            "a bridge, once all have switched",
            bridged(),
            "close 2 3\ndeliver all\nover all\ndeliver all\nover all\ndeliver all\nwords\n\
             send 0 4\nsend 1 1 2-3 4\nsend 2 2 2-3",
            "closed 2-3\nno words\n\
             packet 1: 0 dropped 7 cost 0\n\
             packet 2: 1 dropped 9 cost 0\n\
             packet 3: 2 dropped 9 cost 0\n",
        ),
        (
            "hop by hop",
            ring(),
            "put 0 2\nhop 1\nput 3 1\nhop 1\nhop 2\nhop 1\nclose 0 1\nrun 2",
            "packet 1 at 0\npacket 1 at 1\npacket 2 at 3\npacket 1 at 2\npacket 2 at 0\n\
             packet 1: 0 1 2 arrived cost 2\nclosed 0-1\npacket 2: 3 0 3 2 1 arrived cost 4\n",
        ),
        (
            "messages",
            ring(),
            "words\nclose 0 1\nwords\nagain 1\nwords\n\
             deliver 1\ndeliver 2\nwords\ndeliver all\nwords",
            "no words\nclosed 0-1\n1: 0>3 closed 0-1\n2: 1>2 closed 0-1\n\
             1: 0>3 closed 0-1\n2: 1>2 closed 0-1\n3: 3>0 closed 0-1\n4: 3>2 closed 0-1\n\
             3: 3>0 closed 0-1\n4: 3>2 closed 0-1\n5: 2>1 closed 0-1\n6: 2>3 closed 0-1\n\
             no words\n",
        ),
        (
            "in the order of switching",
            ring(),
            "close 0 1\nover 0 1\nover 0 2\nover 0 0\nover 3 1\n\
             deliver 1\nover 3 1\nover 3 1\nwords\n\
             send 3 1\nsend 0 1\nover 0 1\ndeliver 5\nagain 3\nover 0 1\nstate",
            "closed 0-1\nover 0 1: waits for 3\n\
             2: 1>2 closed 0-1\n3: 3>0 closed 0-1\n4: 3>2 closed 0-1\n5: 3>0 over 1 0-1\n\
             packet 1: 3 2 1 arrived cost 2\npacket 2: 0 3 2 1 arrived cost 3\n\
             over 0 1: waits for 3\n\
             router 0: down none; switched none; waits none; table - 3 3 3\n\
             router 1: down 0-1; switched 1 2; waits 0<2; table 0 - 2 0\n\
             router 2: down none; switched none; waits none; table 1 1 - 3\n\
             router 3: down none; switched none; waits none; table 0 2 2 -\n",
        ),
        (
            "a Switched message before the failure is known",
            topology(5, &[(0, 1, 1), (0, 4, 9), (1, 2, 1), (2, 3, 1), (3, 4, 9)]),
            "close 0 1\ndeliver 1\ndeliver 4\nover 3 0\nagain 7\nover 2 0\n\
             deliver 7\ndeliver 2\nover 2 0\nwords",
            "closed 0-1\n\
             3: 4>0 closed 0-1\n5: 3>2 closed 0-1\n6: 3>4 closed 0-1\n\
             8: 2>1 closed 0-1\n9: 2>3 closed 0-1\n10: 2>1 over 0 0-1\n",
        ),
        (
            "two neighbours are waited for",
            topology(5, &[(0, 1, 1), (0, 4, 9), (1, 2, 1), (1, 3, 1), (2, 3, 1), (3, 4, 1)]),
            "close 0 1\ndeliver 2\ndeliver 3\nstate",
            "closed 0-1\n\
             router 0: down 0-1; switched 0; waits none; table - 1 1 1 1\n\
             router 1: down 0-1; switched 1 2 3 4; waits 0<2 0<3; table 0 - 2 3 3\n\
             router 2: down 0-1; switched 1 2 3 4; waits none; table 1 1 - 3 3\n\
             router 3: down 0-1; switched 1 2 3 4; waits 0<4; table 1 1 2 - 4\n\
             router 4: down none; switched none; waits none; table 3 3 3 3 -\n",
        ),
        (
            "no neighbours",
            topology(1, &[]),
            "send 0 0\nover all\ndeliver all\nstate",
            "packet 1: 0 arrived cost 0\n\
             router 0: down none; switched none; waits none; table -\n",
        ),
        (
            "a failure told twice, and again at its end",
            topology(2, &[(0, 1, 7)]),
            "close 0 1\nclose 1 0\nover all\nclose 0 1\nwords\nsend 0 1\nstate",
            "closed 0-1\nclosed 0-1\nclosed 0-1\nno words\npacket 1: 0 dropped 7 cost 0\n\
             router 0: down none; switched none; waits none; table - -\n\
             router 1: down none; switched none; waits none; table - -\n",
        ),
        (
            "each side of a bridge by itself",
            topology(4, &[(0, 1, 1), (1, 2, 1), (2, 3, 1)]),
            "close 2 3\nover all\nstate",
            "closed 2-3\n\
             router 0: down none; switched none; waits none; table - 1 1 1\n\
             router 1: down none; switched none; waits none; table 0 - 2 2\n\
             router 2: down 2-3; switched 0 1 2; waits 3<1; table 1 1 - 3\n\
             router 3: down none; switched none; waits none; table - - - -\n",
        ),
        (
            "refused by 5",
            topology(5, &[(0, 1, 1), (1, 2, 1), (2, 3, 1), (3, 4, 1)]),
            "close 3 4\nclose 0 1\nwords\nover all\ndeliver 1\ndeliver 2",
            "closed 3-4\nclosed 0-1\n1: 3>2 closed 3-4\n2: 1>2 closed 0-1\nword 2 refused 5\n",
        ),
    ];
    for (name, network, script, expected) in cases {
        let played = tear(network, script.as_bytes());
        assert_eq!(played.end, Ok(()), "{name}");
        assert_eq!(played.text, expected, "{name}");
    }
}
