//! Damaged book texts, through `book` lines of `cases`.

use super::part::{in_parallel, Part};
use super::{books, Context};
use crate::book::Book;
use crate::random::Random;
use crate::session::hex_or_dash;
use std::io;

const BOOKS_OF_A_RUN: usize = 5_000;

pub(super) fn compare(context: &Context) -> io::Result<Part> {
    let all = context.settings.books;
    let units = all.div_ceil(BOOKS_OF_A_RUN);
    let mut part = in_parallel(units, context.settings.threads, |index| {
        compare_some(
            context,
            index,
            BOOKS_OF_A_RUN.min(all - index * BOOKS_OF_A_RUN),
        )
    })?;
    part.expect("outcomes", "accepted", "");
    for number in 11..=15 {
        part.expect("outcomes", format!("refused {number}"), "");
    }
    for (name, _) in DAMAGES {
        part.expect("damages", name, "done");
    }
    Ok(part)
}

fn compare_some(context: &Context, index: usize, count: usize) -> io::Result<Part> {
    let mut random = Random::part(context.settings.seed, 3, index as u64);
    let own_book = books::good_text(&mut random, 10);
    let mut part = Part::default();
    let texts: Vec<Vec<u8>> = (0..count)
        .map(|_| {
            let (text, damages) = damaged(&mut random);
            for damage in damages {
                part.coverage.note("damages", damage, "done");
            }
            text
        })
        .collect();
    let input: String = texts
        .iter()
        .map(|text| format!("book {}\n", hex_or_dash(text)))
        .collect();
    let path = context
        .scratch
        .file(&format!("damage-{index}.book"), own_book)?;
    let printed = context.settings.programs.run("cases", &[&path], &input)?;
    let mut theirs = printed.output.lines();
    for (text, line) in texts.iter().zip(input.lines()) {
        let outcome = match Book::read(text) {
            Ok(_) => "accepted".to_string(),
            Err(refusal) => refusal.to_string(),
        };
        part.compare(&format!("book {outcome}"), theirs.next(), || {
            format!("{line}\n{}", text.escape_ascii())
        });
        let without_line = outcome.splitn(3, ' ').take(2).collect::<Vec<_>>().join(" ");
        part.coverage.note("outcomes", without_line, "");
    }
    if !printed.succeeded || theirs.next().is_some() {
        part.failed(format!("cases, damaged books {index}: {}", printed.error));
    }
    std::fs::remove_file(path)?;
    Ok(part)
}

/// A text that was good before it was damaged, and the names of what was done to it.
pub(super) fn damaged(random: &mut Random) -> (Vec<u8>, Vec<&'static str>) {
    let missing = *random.pick(&[0, 5, 50, 90]);
    let mut text = books::good_text(random, missing).into_bytes();
    let times = *random.pick(&[1, 1, 1, 1, 2, 2, 3]);
    let damages = (0..times)
        .map(|_| {
            let (name, damage) = random.pick(&DAMAGES);
            damage(random, &mut text);
            *name
        })
        .collect();
    (text, damages)
}

type Damage = fn(&mut Random, &mut Vec<u8>);

const DAMAGES: [(&str, Damage); 24] = [
    ("byte changed", |random, text| change_byte(random, text)),
    ("byte inserted", insert_byte),
    ("byte removed", remove_byte),
    ("bit changed", |random, text| change_bit(random, text)),
    ("line doubled", double_line),
    ("lines swapped", swap_lines),
    ("line dropped", drop_line),
    ("empty line", empty_line),
    ("value replaced", |random, text| {
        let value = strange_value(random);
        replace_field(random, text, 2, value)
    }),
    ("value of another line", |random, text| {
        copy_field(random, text, 2)
    }),
    ("name of another line", |random, text| {
        copy_field(random, text, 1)
    }),
    ("letter of another line", |random, text| {
        copy_field(random, text, 0)
    }),
    ("name replaced", |random, text| {
        let name = strange_name(random);
        replace_field(random, text, 1, name)
    }),
    ("letter replaced", |random, text| {
        let letter = *random.pick(&["FF", "f", " F", "a", "C", "AL", "", "A "]);
        replace_field(random, text, 0, letter.into())
    }),
    ("space for tab", |random, text| {
        replace_one(random, text, b'\t', b" ")
    }),
    ("two tabs", |random, text| {
        replace_one(random, text, b'\t', b"\t\t")
    }),
    ("tab at the end of a line", |random, text| {
        replace_one(random, text, b'\n', b"\t\n")
    }),
    ("CR LF in one line", |random, text| {
        replace_one(random, text, b'\n', b"\r\n")
    }),
    ("CR LF in all lines", |_, text| *text = with_cr_lf(text)),
    ("last line feed dropped", |_, text| {
        text.pop();
    }),
    ("cut off", |random, text| {
        let length = random.below(text.len() + 1);
        text.truncate(length)
    }),
    ("line feed dropped", |random, text| {
        replace_one(random, text, b'\n', b"")
    }),
    ("pattern replaced", |random, text| {
        let pattern = random.pick(&["0", "1", "10", "01", "110", "0000", "2", "1111", "11110"]);
        let position = random.below(5);
        let line = lines(text)
            .iter()
            .position(|line| line.starts_with(format!("F\tA{}\t", position + 1).as_bytes()));
        if let Some(line) = line {
            set_field(text, line, 2, pattern.as_bytes().to_vec())
        }
    }),
    ("all lines dropped", |_, text| text.clear()),
];

fn with_cr_lf(text: &[u8]) -> Vec<u8> {
    lines(text)
        .iter()
        .flat_map(|line| match line.strip_suffix(b"\n") {
            Some(line) => [line, b"\r\n"].concat(),
            None => line.clone(),
        })
        .collect()
}

/// The lines with their line feeds.
fn lines(text: &[u8]) -> Vec<Vec<u8>> {
    text.split_inclusive(|&byte| byte == b'\n')
        .map(<[u8]>::to_vec)
        .collect()
}

fn some_byte(random: &mut Random) -> u8 {
    match random.below(4) {
        0 => random.u8(),
        1 => *random.pick(b"\t\n\r \0\x0B\x80\xA0\xC3\xFF"),
        2 => *random.pick(b"0123456789"),
        _ => *random.pick(b"AFLBabflXYZ+-x_."),
    }
}

fn change_byte(random: &mut Random, text: &mut [u8]) {
    if !text.is_empty() {
        let at = random.below(text.len());
        text[at] = some_byte(random);
    }
}

fn change_bit(random: &mut Random, text: &mut [u8]) {
    if !text.is_empty() {
        let at = random.below(text.len());
        text[at] ^= 1 << random.below(8);
    }
}

fn insert_byte(random: &mut Random, text: &mut Vec<u8>) {
    let at = random.below(text.len() + 1);
    text.insert(at, some_byte(random));
}

fn remove_byte(random: &mut Random, text: &mut Vec<u8>) {
    if !text.is_empty() {
        text.remove(random.below(text.len()));
    }
}

fn double_line(random: &mut Random, text: &mut Vec<u8>) {
    let mut lines = lines(text);
    if !lines.is_empty() {
        let line = random.pick(&lines).clone();
        lines.insert(random.below(lines.len() + 1), line);
        *text = lines.concat();
    }
}

fn swap_lines(random: &mut Random, text: &mut Vec<u8>) {
    let mut lines = lines(text);
    if !lines.is_empty() {
        let (first, second) = (random.below(lines.len()), random.below(lines.len()));
        lines.swap(first, second);
        *text = lines.concat();
    }
}

fn drop_line(random: &mut Random, text: &mut Vec<u8>) {
    let mut lines = lines(text);
    if !lines.is_empty() {
        lines.remove(random.below(lines.len()));
        *text = lines.concat();
    }
}

fn empty_line(random: &mut Random, text: &mut Vec<u8>) {
    let mut lines = lines(text);
    let at = *random.pick(&[0, lines.len(), lines.len() / 2]);
    lines.insert(at, b"\n".to_vec());
    *text = lines.concat();
}

fn strange_value(random: &mut Random) -> Vec<u8> {
    let value = match random.below(3) {
        0 => random.below(70).to_string(),
        1 => random
            .pick(&[
                "18", "22", "23", "39", "55", "16", "63", "15", "64", "0", "1", "2", "3", "4",
            ])
            .to_string(),
        _ => random
            .pick(&[
                "017",
                "+17",
                "-17",
                "17 ",
                " 17",
                "0x11",
                "00",
                "1e1",
                "272",
                "65553",
                "4294967313",
                "18446744073709551633",
                "340282366920938463463374607431768211473",
                "",
                "\u{661}\u{667}",
                "17\0",
                "2.0",
            ])
            .to_string(),
    };
    value.into_bytes()
}

fn strange_name(random: &mut Random) -> Vec<u8> {
    random
        .pick(&[
            "A1 ", "A6", "HRK", "LDL", "BITL", "LD", "ld", "MBS", "B", "BL", "A", "", "LDB\0",
            "SFM", "BZ", "\u{e9}", "F",
        ])
        .as_bytes()
        .to_vec()
}

/// Sets a field of a line, which may have fewer.
fn set_field(text: &mut Vec<u8>, line: usize, field: usize, value: Vec<u8>) {
    let mut lines = lines(text);
    let (content, end): (&[u8], &[u8]) = match lines[line].strip_suffix(b"\n") {
        Some(content) => (content, b"\n"),
        None => (&lines[line], b""),
    };
    let mut fields: Vec<Vec<u8>> = content
        .split(|&byte| byte == b'\t')
        .map(<[u8]>::to_vec)
        .collect();
    if let Some(old) = fields.get_mut(field) {
        *old = value;
    }
    lines[line] = [&fields.join(&b'\t'), end].concat();
    *text = lines.concat();
}

fn replace_field(random: &mut Random, text: &mut Vec<u8>, field: usize, value: Vec<u8>) {
    let count = lines(text).len();
    if count > 0 {
        set_field(text, random.below(count), field, value);
    }
}

/// Gives a line the field of another.
fn copy_field(random: &mut Random, text: &mut Vec<u8>, field: usize) {
    let lines = lines(text);
    if lines.is_empty() {
        return;
    }
    let from = random.pick(&lines);
    let from = from.strip_suffix(b"\n").unwrap_or(from);
    if let Some(value) = from.split(|&byte| byte == b'\t').nth(field) {
        let value = value.to_vec();
        set_field(text, random.below(lines.len()), field, value);
    }
}

/// Replaces one of the places where a byte stands.
fn replace_one(random: &mut Random, text: &mut Vec<u8>, old: u8, new: &[u8]) {
    let places: Vec<usize> = (0..text.len()).filter(|&at| text[at] == old).collect();
    if !places.is_empty() {
        let at = *random.pick(&places);
        text.splice(at..=at, new.iter().copied());
    }
}
