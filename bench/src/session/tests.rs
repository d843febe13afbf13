//! The example of programs.md, "calls", and the one of hall.md, "Histories and the laws".

use super::*;
use crate::store::Owned;

/// Reads a line of a script, as these examples need it.
fn request(line: &str) -> Request {
    let words: Vec<&str> = line.split(' ').collect();
    let number = |i: usize| -> u32 { words[i].parse().unwrap() };
    let address = |i: usize| number(i) as u16;
    let call = match words[0] {
        "open" => Call::Open,
        "grant" if words[2] == "read" => Call::Grant(Kind::Read, address(3), address(4)),
        "grant" => Call::Grant(Kind::Write, address(3), address(4)),
        "load" => Call::Load(
            address(2),
            (0..words[3].len() / 2)
                .map(|i| u8::from_str_radix(&words[3][2 * i..2 * i + 2], 16).unwrap())
                .collect(),
        ),
        "set" => Call::Set(Registers {
            a: number(2) as i32,
            b: number(3),
            x: number(4) as i16,
            y: address(5),
            z: address(6),
            s: address(7),
            l: address(8),
            fm: number(9) == 1,
            n: number(10) == 1,
            zr: number(11) == 1,
            of: number(12) == 1,
            ca: number(13) == 1,
        }),
        "seal" => Call::Seal,
        "turn" => Call::Turn(address(2)),
        "look" => Call::Look,
        "copy" => Call::Copy(address(2), number(3)),
        "close" => Call::Close,
        other => panic!("{other} is no call"),
    };
    Request {
        bay: number(1),
        call,
    }
}

fn check(session: &mut Session<Owned>, lines: &[(&str, &str)]) {
    for (line, answer) in lines {
        let request = request(line);
        assert_eq!(request.to_string(), *line);
        assert_eq!(session.serve(&request).to_string(), *answer, "{line}");
    }
}

#[test]
fn example_of_calls() {
    let mut store = Owned::zero();
    for (address, byte) in [(1000, 0x12), (1002, 0x12), (1003, 0x01)] {
        store.write(address, byte);
    }
    let mut session = Session::new(store, &Book::new());
    check(
        &mut session,
        &[
            ("open 1", "done"),
            ("grant 1 read 1000 1003", "done"),
            ("grant 1 write 1003 1010", "refused 6"),
            ("grant 1 write 1004 1005", "done"),
            ("turn 1 5", "no handle"),
            ("load 1 1004 0A0B", "done"),
            ("load 1 1003 0A", "refused 7"),
            ("set 1 7 0 0 0 0 1000 0 0 0 0 0 0", "done"),
            ("seal 1", "done"),
            ("turn 1 1", "spent 1"),
            ("look 1", "state 0 0 0 0 0 1002 0 0 0 1 0 0 running"),
            ("turn 1 10", "stopped 0 3 1002"),
            ("look 1", "state 0 0 0 0 0 1002 0 0 0 1 0 0 stopped 3 1002"),
            ("set 1 0 0 0 0 0 1006 0 0 0 0 0 0", "done"),
            ("turn 1 1", "stopped 0 2 1006 1 read 1006"),
            ("copy 1 1000 6", "bytes 120012010A0B"),
            ("copy 1 1000 0", "bytes -"),
            ("copy 1 1004 3", "refused 7"),
            ("grant 1 read 2000 2001", "no handle"),
            ("open 1", "refused 3"),
            ("close 1", "done"),
            ("look 1", "no handle"),
            ("open 9", "refused 1"),
            ("close 9", "no handle"),
        ],
    );
}

const BEGINNING: [(&str, &str); 8] = [
    ("open 1", "done"),
    ("grant 1 read 100 103", "done"),
    ("grant 1 write 200 209", "done"),
    ("open 2", "done"),
    ("grant 2 write 208 399", "refused 6"),
    ("grant 2 write 300 399", "done"),
    ("seal 1", "done"),
    ("seal 2", "done"),
];
const BAY_1: [(&str, &str); 4] = [
    ("set 1 0 0 2 200 100 100 0 0 0 0 0 0", "done"),
    ("turn 1 1", "spent 1"),
    ("turn 1 9", "stopped 1 3 102"),
    ("copy 1 200 2", "bytes 2700"),
];
const BAY_2: [(&str, &str); 3] = [
    ("load 2 300 12001203", "done"),
    ("set 2 0 0 0 0 0 300 0 0 0 0 0 0", "done"),
    ("turn 2 50", "stopped 1 1 302"),
];
const OTHER_BAY_2: [(&str, &str); 4] = [
    ("load 2 390 FF", "done"),
    ("copy 2 399 2", "refused 7"),
    ("turn 2 1000", "stopped 0 2 0 1 read 0"),
    (
        "look 2",
        "state 0 0 0 0 0 0 0 0 0 0 0 0 stopped 2 0 1 read 0",
    ),
];
const END: [(&str, &str); 4] = [
    ("close 2", "done"),
    ("open 3", "done"),
    ("grant 3 read 300 303", "done"),
    ("copy 3 300 4", "bytes 00000000"),
];

fn example_session() -> Session<Owned> {
    let mut store = Owned::zero();
    for (address, byte) in [
        (100, 0x27),
        (102, 0x12),
        (103, 0x01),
        (300, 0x5A),
        (301, 0x5A),
        (500, 0x41),
    ] {
        store.write(address, byte);
    }
    Session::new(store, &Book::new())
}

/// All ways to mix two lists of which each keeps its order.
fn mixes<T: Copy>(first: &[T], second: &[T]) -> Vec<Vec<T>> {
    if first.is_empty() || second.is_empty() {
        return vec![[first, second].concat()];
    }
    let with_head = |head: T, rest: Vec<Vec<T>>| {
        rest.into_iter()
            .map(move |rest| [vec![head], rest].concat())
    };
    with_head(first[0], mixes(&first[1..], second))
        .chain(with_head(second[0], mixes(first, &second[1..])))
        .collect()
}

#[test]
fn example_of_the_laws_in_every_order() {
    let orders = mixes(&BAY_1, &BAY_2);
    assert_eq!(orders.len(), 35);
    for order in orders {
        let mut session = example_session();
        check(&mut session, &BEGINNING);
        check(&mut session, &order);
        check(&mut session, &END);
        let bytes = session.hall().store().bytes();
        assert_eq!(bytes[500], 0x41);
        assert!(bytes[300..400].iter().all(|&byte| byte == 0));
    }
}

#[test]
fn example_with_another_bay_2() {
    for order in mixes(&BAY_1, &OTHER_BAY_2) {
        let mut session = example_session();
        check(&mut session, &BEGINNING);
        check(&mut session, &order);
        check(&mut session, &END[..3]);
    }
}
