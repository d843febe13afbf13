//! Random values that are biased to the edges, and random words.

use crate::book::{Book, EXCLUDED_L};
use crate::name::{Class, Format, Name, WHOLE_WORDS};
use crate::random::Random;
use crate::reading::d_range;
use crate::registers::Registers;

pub fn halfword(random: &mut Random) -> u16 {
    match random.below(6) {
        0 => random.u16(),
        1 => random.below(6) as u16,
        2 => (random.below(6) as u16).wrapping_neg(),
        3 => *random.pick(&[0, 1, 0x7FFF, 0x8000, 0x8001, 0xFFFF, 0x4000, 0x4001, 0xC000]),
        4 => random.below(300) as u16,
        _ => (1_u16 << random.below(16)).wrapping_add(random.between(-1, 1) as u16),
    }
}

pub fn fullword(random: &mut Random) -> u32 {
    match random.below(7) {
        0 => random.u32(),
        1 => random.below(6) as u32,
        2 => (random.below(6) as u32).wrapping_neg(),
        3 => *random.pick(&[
            0,
            1,
            0x7FFF_FFFF,
            0x8000_0000,
            0x8000_0001,
            0xFFFF_FFFF,
            0x7FFF,
            0x8000,
            0xFFFF_8000,
            0xFFFF_7FFF,
            0xFFFF,
            0x1_0000,
        ]),
        4 => halfword(random) as i16 as i32 as u32,
        5 => u32::from(random.u16()) << 16 | u32::from(halfword(random)),
        _ => (1_u32 << random.below(32)).wrapping_add(random.between(-1, 1) as u32),
    }
}

pub fn address(random: &mut Random) -> u16 {
    match random.below(6) {
        0 => random.below(40) as u16,
        1 => 0xFFFF - random.below(40) as u16,
        2 => 0x7FF0 + random.below(32) as u16,
        _ => random.u16(),
    }
}

pub fn near(random: &mut Random, address: u16, distance: i64) -> u16 {
    address.wrapping_add(random.between(-distance, distance) as u16)
}

pub fn registers(random: &mut Random) -> Registers {
    let s = address(random);
    let mut base = || {
        if random.percent(12) {
            near(random, s, 12)
        } else if random.percent(15) {
            halfword(random)
        } else {
            address(random)
        }
    };
    let (y, z, l) = (base(), base(), base());
    Registers {
        a: fullword(random) as i32,
        b: fullword(random),
        x: halfword(random) as i16,
        y,
        z: if random.percent(20) {
            near(random, y, 6)
        } else {
            z
        },
        s,
        l,
        fm: random.percent(6),
        n: random.bool(),
        zr: random.bool(),
        of: random.bool(),
        ca: random.bool(),
    }
}

/// An instruction and a format that it has under a book.
pub type Kind = (Name, Format);

/// All instructions of a book in all their formats.
pub fn kinds(book: &Book) -> Vec<Kind> {
    Name::ALL
        .iter()
        .filter(|name| book.has(**name))
        .flat_map(|&name| formats(name).iter().map(move |&format| (name, format)))
        .collect()
}

/// The same, but those that have more ways to go than others are there more often.
pub fn weighted_kinds(book: &Book) -> Vec<Kind> {
    let weight = |name: Name| match name {
        _ if name.is_string() => 5,
        Name::BITL | Name::BITX => 4,
        _ if name.class() == Class::L => 2,
        _ => 1,
    };
    kinds(book)
        .into_iter()
        .flat_map(|kind| std::iter::repeat_n(kind, weight(kind.0)))
        .collect()
}

/// The formats of a name.
pub fn formats(name: Name) -> &'static [Format] {
    match name.class() {
        Class::A => &Format::A,
        Class::B => &[Format::B],
        Class::L | Class::Fixed => &[Format::L],
    }
}

/// A word of one of the kinds.
pub fn word_of(random: &mut Random, book: &Book, (name, format): Kind) -> u16 {
    if let Some(word) = name.whole_word() {
        return word;
    }
    let m = random.between(0, (1 << format.m_bits()) - 1);
    let range = d_range(name, format);
    let d = match random.below(4) {
        0 => range.start,
        1 => range.end - 1 - random.between(0, 1),
        2 => random.between(0, 3),
        _ => random.between(range.start, range.end - 1),
    };
    let d = match name {
        Name::BITL if random.percent(80) => control_byte(random),
        _ => d,
    };
    book.put(name.text(), format.text(), m, d)
        .expect("the kinds are those of the book")
}

/// A word that mostly can be obeyed by a bay whose base registers lie in its grants.
pub fn gentle_word(random: &mut Random, book: &Book, kinds: &[Kind]) -> u16 {
    let (name, format) = *random.pick(kinds);
    if name.whole_word().is_some() || name == Name::BITL || !book.has(name) {
        return word_of(random, book, (name, format));
    }
    let (format, m, d) = match name.class() {
        Class::A => (Format::A2, *random.pick(&[0, 2, 3]), random.between(0, 4)),
        Class::B => (format, 0, random.between(-3, 6)),
        _ if name.is_conditional_branch() => (format, 0, random.between(-3, 6)),
        _ => (format, 0, random.between(0, 255)),
    };
    book.put(name.text(), format.text(), m, d)
        .expect("the kinds are those of the book")
}

/// A control byte that has an operation.
pub fn control_byte(random: &mut Random) -> i64 {
    random.pick(&[0, 9, 10, 11, 14]) << 4 | random.between(0, 15)
}

/// A word that is mostly defined under the book.
pub fn word(random: &mut Random, book: &Book, kinds: &[Kind]) -> u16 {
    match random.below(100) {
        0..=4 => random.u16(),
        5..=7 => near(random, random.clone().pick(&WHOLE_WORDS).0, 2),
        8 => u16::from(*random.pick(&EXCLUDED_L)) << 8 | u16::from(random.u8()),
        9 => *random.pick(&[0, 0x03FF, 0x0400, 0x0FFF, 0x1000, 0x3FFF, 0x4000, 0xFFFF]),
        _ => {
            let kind = *random.pick(kinds);
            word_of(random, book, kind)
        }
    }
}
