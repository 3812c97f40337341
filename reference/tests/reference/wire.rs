//! Lists of links in bytes.

use crate::support::{random_networks, topology};
use reference::damage::Damage;
use reference::fault::Fault;
use reference::random::Random;
use reference::wire::{emit, parse};

#[test]
fn refused_with_the_right_number() {
    let cases: &[(&str, &[u8], u8)] = &[
        ("nothing", &[], 1),
        ("cut header", &[1, 4, 0], 1),
        ("unknown kind", &[2, 4, 0, 0], 1),
        ("unknown kind, and no nodes", &[2, 0, 0, 0], 1),
        ("cut header of no nodes", &[1, 0], 1),
        ("no nodes", &[1, 0, 0, 0], 2),
        ("no nodes, and a byte left over", &[1, 0, 0, 0, 9], 2),
        ("too many nodes", &[1, 65, 0, 0], 2),
        ("link missing", &[1, 4, 0, 1], 1),
        ("cut link", &[1, 4, 0, 1, 0, 1, 0], 1),
        ("cut link with a node too high", &[1, 4, 0, 1, 9, 9, 0], 1),
        ("lower node too high", &[1, 4, 0, 1, 4, 5, 0, 1], 2),
        ("higher node too high", &[1, 4, 0, 1, 0, 4, 0, 1], 2),
        ("higher node first, and too high", &[1, 4, 0, 1, 4, 0, 0, 1], 2),
        ("cost of 0", &[1, 4, 0, 1, 0, 1, 0, 0], 2),
        ("cost of 0 from a node to itself", &[1, 4, 0, 1, 1, 1, 0, 0], 2),
        ("from a node to itself", &[1, 4, 0, 1, 1, 1, 0, 1], 3),
        ("higher node first", &[1, 4, 0, 1, 1, 0, 0, 1], 3),
        ("repeated link", &[1, 4, 0, 2, 0, 1, 0, 1, 0, 1, 0, 2], 3),
        ("falling lower node", &[1, 4, 0, 2, 1, 2, 0, 1, 0, 3, 0, 1], 3),
        ("falling higher node", &[1, 4, 0, 2, 0, 2, 0, 1, 0, 1, 0, 1], 3),
        ("repeated link at a cost of 0", &[1, 4, 0, 2, 0, 1, 0, 1, 0, 1, 0, 0], 2),
        ("faults 3 and 2 in two links", &[1, 4, 0, 2, 1, 0, 0, 1, 0, 1, 0, 0], 3),
        ("byte left over", &[1, 4, 0, 0, 0], 1),
        ("link left over", &[1, 4, 0, 1, 0, 1, 0, 1, 0, 2, 0, 1], 1),
        ("fault 3, and a byte left over", &[1, 4, 0, 1, 1, 0, 0, 1, 0], 3),
        ("fault 3, and a cut link", &[1, 4, 0, 2, 1, 0, 0, 1, 0], 3),
    ];
    for (name, bytes, number) in cases {
        let answer = parse(bytes).as_ref().map_err(Fault::number).err();
        assert_eq!(answer, Some(*number), "{name}");
    }
}

#[test]
fn accepted() {
    let cases: &[(&str, &[u8], _)] = &[
        ("one node", &[1, 1, 0, 0], topology(1, &[])),
        ("64 nodes", &[1, 64, 0, 0], topology(64, &[])),
        ("high byte first", &[1, 2, 0, 1, 0, 1, 1, 2], topology(2, &[(0, 1, 258)])),
        (
            "rising by either node",
            &[1, 3, 0, 3, 0, 1, 0, 3, 0, 2, 0, 2, 1, 2, 255, 255],
            topology(3, &[(0, 1, 3), (0, 2, 2), (1, 2, 65_535)]),
        ),
    ];
    for (name, bytes, network) in cases {
        assert_eq!(parse(bytes).as_ref(), Ok(network), "{name}");
        assert_eq!(emit(network), *bytes, "{name}");
    }
}

#[test]
fn what_is_written_is_read_back() {
    for network in random_networks() {
        assert_eq!(parse(&emit(&network)), Ok(network));
    }
}

#[test]
fn a_network_is_written_in_one_way_only() {
    let random = &mut Random::new(2);
    for network in random_networks() {
        for damage in Damage::ALL {
            let mut list = emit(&network);
            damage.apply(&mut list, random);
            if let Ok(read) = parse(&list) {
                assert_eq!(emit(&read), list, "{damage:?}");
            }
        }
    }
}
