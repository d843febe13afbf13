//! The worked examples of machine.md.

use super::*;
use crate::book::Book;
use crate::grants::{Grant, Kind};
use crate::store::Owned;

const BOOK: &[u8] = b"F\tA1\t10\nF\tA2\t0\nF\tA3\t1110\nF\tA4\t110\nF\tA5\t1111\n\
A\tLD\t17\nA\tDX\t18\nA\tADX\t19\nA\tSB\t20\nA\tST\t21\nA\tLDW\t22\nA\tBLI\t23\nA\tSTB\t24\n\
B\tB\t1\nL\tML\t16\nL\tBITX\t17\nL\tBOF\t19\n";

struct Bench {
    book: Book,
    readings: Readings,
    grants: Grants,
    store: Owned,
    registers: Registers,
}

impl Bench {
    fn new() -> Bench {
        let book = Book::read(BOOK).unwrap();
        Bench {
            readings: Readings::of(&book),
            book,
            // The words stand from 1000 on, and no instruction writes there.
            grants: Grants::new(vec![
                Grant::new(Kind::Write, 0, 999),
                Grant::new(Kind::Read, 1000, 1005),
                Grant::new(Kind::Write, 1006, u16::MAX),
            ]),
            store: Owned::zero(),
            registers: Registers::default(),
        }
    }

    fn put_halfword(&mut self, address: u16, value: u16) {
        for (byte, value) in (address..).zip(value.to_be_bytes()) {
            self.store.write(byte, value);
        }
    }

    fn step(&mut self) -> Result<(), Stop> {
        step(
            &self.readings,
            &mut self.grants,
            &mut self.store,
            &mut self.registers,
        )
    }

    /// One step of an instruction at 1000 whose operand, in format A1, is `operand`.
    fn with_operand(&mut self, name: &str, operand: i16) -> Result<(), Stop> {
        let word = self.book.put(name, "A1", 0, 3).unwrap();
        self.put_halfword(6, operand as u16);
        self.put_halfword(1000, word);
        self.registers.s = 1000;
        self.step()
    }

    fn word(&mut self, word: u16) -> Result<(), Stop> {
        self.put_halfword(1000, word);
        self.registers.s = 1000;
        self.step()
    }
}

#[test]
fn branch() {
    let mut bench = Bench::new();
    bench.word(0x040B).unwrap();
    assert_eq!(bench.registers.s, 1024);
}

#[test]
fn operand_by_s() {
    let mut bench = Bench::new();
    bench.put_halfword(200, 0x4483);
    bench.put_halfword(208, 77);
    bench.grants = Grants::new(vec![Grant::new(Kind::Read, 200, 209)]);
    bench.registers.s = 200;
    bench.step().unwrap();
    assert_eq!(bench.registers.a, 77);
}

#[test]
fn operand_by_pointer() {
    let mut bench = Bench::new();
    bench.registers.l = 400;
    bench.registers.x = -1;
    bench.put_halfword(404, 600);
    bench.put_halfword(598, 0xFFFE);
    bench.word(0x4702).unwrap();
    assert_eq!(bench.registers.a, -2);
    assert!(bench.registers.n);
}

#[test]
fn place_bit() {
    let mut bench = Bench::new();
    bench.registers.a = 0x1234_5678;
    bench.word(0x16AC).unwrap();
    assert_eq!(bench.registers.a, 0x1234_0008);
}

#[test]
fn control_byte_without_operation() {
    let mut bench = Bench::new();
    let stop = bench.word(0x1610).unwrap_err();
    assert_eq!(stop.to_string(), "1 1000");
}

#[test]
fn divisions() {
    let mut bench = Bench::new();
    bench.registers.x = -7;
    bench.with_operand("DX", 2).unwrap();
    assert_eq!((bench.registers.x, bench.registers.n), (-3, true));

    bench.registers = Registers {
        x: i16::MIN,
        n: true,
        ..Registers::default()
    };
    bench.with_operand("DX", -1).unwrap();
    assert_eq!(bench.registers.x, i16::MIN);
    assert!(bench.registers.of && bench.registers.n && !bench.registers.zr);

    bench.registers = Registers {
        x: -1,
        ..Registers::default()
    };
    bench.with_operand("DX", 2).unwrap();
    assert_eq!(bench.registers.x, 0);
    assert!(!bench.registers.n && bench.registers.zr && !bench.registers.of);
}

#[test]
fn sums() {
    let mut bench = Bench::new();
    bench.registers.x = 32_767;
    bench.with_operand("ADX", 1).unwrap();
    let r = bench.registers;
    assert_eq!((r.x, r.n, r.of, r.ca), (i16::MIN, false, true, false));

    bench.registers.a = 5;
    bench.with_operand("SB", -1).unwrap();
    assert_eq!((bench.registers.a, bench.registers.ca), (6, true));
    assert!(bench.registers.of, "a sum that fits does not clear OF");
}

#[test]
fn product() {
    let mut bench = Bench::new();
    bench.registers.a = i32::MIN;
    let ml = bench.book.put("ML", "L", 0, 2).unwrap();
    bench.word(ml).unwrap();
    let r = bench.registers;
    assert_eq!((r.a, r.n, r.zr, r.of), (0, true, true, true));
}

#[test]
fn bytes_moved_upwards() {
    let mut bench = Bench::new();
    bench.registers = Registers {
        x: -2,
        y: 101,
        z: 201,
        ..Registers::default()
    };
    bench.store.write(200, 8);
    bench.store.write(201, 9);
    bench.word(0x2700).unwrap();
    assert_eq!((bench.store.read(100), bench.store.read(101)), (8, 0));
    assert_eq!((bench.registers.x, bench.registers.s), (-1, 1000));
    bench.step().unwrap();
    assert_eq!((bench.store.read(100), bench.store.read(101)), (8, 9));
    let r = bench.registers;
    assert_eq!((r.x, r.s, r.n, r.zr), (0, 1002, false, true));
}

#[test]
fn stops_in_their_order() {
    let mut bench = Bench::new();
    bench.registers.fm = true;
    assert_eq!(bench.word(0x7C00).unwrap_err().to_string(), "1 1000");
    assert_eq!(bench.word(0x4483).unwrap_err().to_string(), "4 1000");
    assert_eq!(bench.word(0x1201).unwrap_err().to_string(), "3 1000");
    bench.grants = Grants::new(vec![]);
    bench.registers.s = 1001;
    assert_eq!(bench.step().unwrap_err().to_string(), "2 1001 1 read 1000");
}

#[test]
fn every_byte_of_a_fullword_is_checked() {
    let mut bench = Bench::new();
    let ldw = bench.book.put("LDW", "A1", 0, 1).unwrap();
    bench.grants = Grants::new(vec![
        Grant::new(Kind::Read, 1000, 1001),
        Grant::new(Kind::Read, 4, 5),
        Grant::new(Kind::Write, 7, 7),
    ]);
    let stop = bench.word(ldw).unwrap_err();
    assert_eq!(stop.to_string(), "2 1000 3 read 6");
    bench.grants.add(Grant::new(Kind::Read, 6, 6));
    bench.word(ldw).unwrap();
}

#[test]
fn a_refused_store_says_write() {
    let mut bench = Bench::new();
    bench.grants = Grants::new(vec![Grant::new(Kind::Read, 0, u16::MAX)]);
    let before = bench.registers;
    let stop = bench.with_operand("ST", 1).unwrap_err();
    assert_eq!(stop.to_string(), "2 1000 3 write 6");
    assert_eq!(bench.registers, Registers { s: 1000, ..before });
}

#[test]
fn link_is_set_after_the_operand_is_read() {
    let mut bench = Bench::new();
    let bli = bench.book.put("BLI", "A2", 3, 1).unwrap();
    bench.registers.z = 500;
    bench.put_halfword(502, 4001);
    bench.word(bli).unwrap();
    assert_eq!((bench.registers.z, bench.registers.s), (1002, 4001));
}

#[test]
fn a_turn_counts_completed_steps() {
    let mut bench = Bench::new();
    bench.put_halfword(1000, 0x1200);
    bench.put_halfword(1002, 0x1203);
    bench.registers.s = 1000;
    let mut run = |budget| {
        turn(
            &bench.readings,
            &mut bench.grants,
            &mut bench.store,
            &mut bench.registers,
            budget,
        )
    };
    assert_eq!(
        run(0),
        Turn {
            steps: 0,
            stop: None
        }
    );
    assert_eq!(
        run(1),
        Turn {
            steps: 1,
            stop: None
        }
    );
    let Turn { steps, stop } = run(9);
    assert_eq!((steps, stop.unwrap().to_string()), (0, "1 1002".into()));
}
