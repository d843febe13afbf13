//! All readings of some books, and words put together, through `cases`.

use super::part::{in_parallel, keep, Part};
use super::{books, damage, values, Context};
use crate::book::Book;
use crate::name::{Format, Name};
use crate::random::Random;
use crate::reading::{d_range, Reading};
use std::io;

/// One such book for so many damaged ones.
const DAMAGED_BOOKS: usize = 2_500;
const LEAST_BOOKS: usize = 12;
const PUTS: usize = 10_000;

pub(super) fn compare(context: &Context) -> io::Result<Part> {
    let count = (context.settings.books / DAMAGED_BOOKS).max(LEAST_BOOKS);
    let mut part = in_parallel(count, context.settings.threads, |index| {
        compare_one(context, index)
    })?;
    part.expect("readings", "undefined", "");
    for format in Format::ALL {
        part.expect("readings", "defined", format);
    }
    for &name in Name::ALL {
        for format in values::formats(name) {
            part.expect("put", name, format);
        }
    }
    for number in [21, 22] {
        part.expect("put", "refused", number);
    }
    Ok(part)
}

fn compare_one(context: &Context, index: usize) -> io::Result<Part> {
    let mut random = Random::part(context.settings.seed, 4, index as u64);
    let (text, book) = accepted(&mut random, index);
    let mut part = Part::default();
    let mut input = String::new();
    let mut ours = Vec::new();
    for word in 0..=u16::MAX {
        let reading = book.reading(word);
        input += &format!("reading {word:04X}\n");
        ours.push(format!("reading {reading}"));
        match reading {
            Reading::Defined(i) => part.coverage.note("readings", "defined", i.format),
            other => part.coverage.note("readings", other, ""),
        }
    }
    for _ in 0..PUTS {
        let (name, format, m, d) = random_put(&mut random);
        let put = book.put(name.text(), format.text(), m, d);
        input += &format!("put {name} {format} {m} {d}\n");
        match put {
            Ok(word) => {
                ours.push(format!("put {word:04X}"));
                part.coverage.note("put", name, format);
            }
            Err(number) => {
                ours.push(format!("put refused {number}"));
                part.coverage.note("put", "refused", number);
            }
        }
    }
    let path = context
        .scratch
        .file(&format!("readings-{index}.book"), &text)?;
    let printed = context.settings.programs.run("cases", &[&path], &input)?;
    let mut theirs = printed.output.lines();
    for (line, ours) in input.lines().zip(&ours) {
        part.compare(ours, theirs.next(), || {
            let folder = keep(&format!("readings-{index}"), &[("book", &text)]);
            format!("under {}/book\n  {line}", folder.display())
        });
    }
    if !printed.succeeded || theirs.next().is_some() {
        part.failed(format!("cases, readings {index}: {}", printed.error));
    }
    std::fs::remove_file(path)?;
    Ok(part)
}

/// A book that was accepted: every third undamaged, the others in spite of damage.
fn accepted(random: &mut Random, index: usize) -> (Vec<u8>, Book) {
    loop {
        let text = if index.is_multiple_of(3) {
            books::good_text(random, 0).into_bytes()
        } else {
            damage::damaged(random).0
        };
        if let Ok(book) = Book::read(&text) {
            return (text, book);
        }
    }
}

fn random_put(random: &mut Random) -> (Name, Format, i64, i64) {
    let name = *random.pick(Name::ALL);
    let format = match random.below(8) {
        0 => *random.pick(&Format::ALL),
        _ => *random.pick(values::formats(name)),
    };
    let m = match random.below(4) {
        0 => random.between(-2, 5),
        1 => 0,
        _ => random.between(0, (1 << format.m_bits()) - 1),
    };
    let range = d_range(name, format);
    let d = match random.below(8) {
        _ if name.whole_word().is_some() => random.between(-1, 1) * random.between(0, 1),
        0 => range.start - random.between(0, 1),
        1 => range.end - random.between(0, 1),
        2 => random.between(-2000, 2000),
        3 => *random.pick(&[-65_536, 65_536, -32_769, 32_768, 256, -256, -1]),
        _ => random.between(range.start, range.end - 1),
    };
    (name, format, m, d)
}

/// Names and formats of which one is unknown: refused with 21.
const UNKNOWN: [(&str, &str); 8] = [
    ("XYZ", "A2"),
    ("ld", "A2"),
    ("LDBB", "A1"),
    ("A1", "A1"),
    ("LD", "A6"),
    ("LD", "a1"),
    ("RK", "LL"),
    ("XYZ", "A9"),
];

/// Each goes through a program run of its own, as one may end it.
pub(super) fn compare_unknown(context: &Context) -> io::Result<Part> {
    let mut random = Random::part(context.settings.seed, 5, 0);
    let text = books::good_text(&mut random, 0);
    let book = Book::read(text.as_bytes()).expect("a good book");
    let path = context.scratch.file("unknown.book", &text)?;
    let mut part = Part::default();
    for (name, format) in UNKNOWN {
        let ours = match book.put(name, format, 0, 0) {
            Ok(word) => format!("put {word:04X}"),
            Err(number) => format!("put refused {number}"),
        };
        let line = format!("put {name} {format} 0 0\n");
        let printed = context.settings.programs.run("cases", &[&path], &line)?;
        part.compare(&ours, printed.output.lines().next(), || {
            format!("{line}  {}", printed.error.trim_end())
        });
    }
    Ok(part)
}
