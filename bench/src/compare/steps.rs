//! Random single steps and short turns, through `run` lines of `cases`.

use super::coverage::Coverage;
use super::part::{in_parallel, keep, Part};
use super::values::{self, Kind as WordKind};
use super::watched::{MadeUp, Watched};
use super::{books, Context};
use crate::book::Book;
use crate::grants::{Grant, Grants, Kind, Use, MOST};
use crate::name::{Class, Format, Name};
use crate::random::Random;
use crate::reading::{Instruction, Reading, Readings};
use crate::registers::Registers;
use crate::session::hex_or_dash;
use crate::step::bits::Operation;
use crate::step::{step, turn, Cause, Stop, Turn};
use crate::store::{Owned, Store};
use std::collections::BTreeMap;
use std::fmt::Write;
use std::io;

const LEAST_BOOKS: usize = 24;
const CASES_OF_A_BOOK: usize = 20_000;
const LONGEST_TURN: i64 = 40;

pub(super) fn compare(context: &Context) -> io::Result<Part> {
    let all = context.settings.steps;
    let books = all.div_ceil(CASES_OF_A_BOOK).max(LEAST_BOOKS);
    let mut part = in_parallel(books, context.settings.threads, |index| {
        let cases = all / books + usize::from(index < all % books);
        compare_under_one_book(context, index, cases)
    })?;
    expect(&mut part);
    Ok(part)
}

fn compare_under_one_book(context: &Context, index: usize, count: usize) -> io::Result<Part> {
    let mut random = Random::part(context.settings.seed, 1, index as u64);
    let missing = if index % 4 == 3 { 20 } else { 0 };
    let text = books::good_text(&mut random, missing);
    let book = Book::read(text.as_bytes()).expect("a good book");
    let readings = Readings::of(&book);
    let kinds = values::weighted_kinds(&book);
    let cases: Vec<Case> = (0..count)
        .map(|_| Case::random(&mut random, &book, &readings, &kinds))
        .collect();

    let mut input = String::new();
    for (number, case) in cases.iter().enumerate() {
        case.write_line(number, &mut input);
    }
    let file = format!("steps-{index}.book");
    let path = context.scratch.file(&file, &text)?;
    let printed = context.settings.programs.run("cases", &[&path], &input)?;

    let mut part = Part::default();
    let mut theirs = printed.output.lines();
    for (number, (case, line)) in cases.iter().zip(input.lines()).enumerate() {
        part.compare(&case.answer(number, &readings), theirs.next(), || {
            let folder = keep(&format!("steps-{index}"), &[("book", text.as_bytes())]);
            format!("under {}/book\n  {line}", folder.display())
        });
        case.cover(&readings, &mut part.coverage);
    }
    if !printed.succeeded || theirs.next().is_some() {
        part.failed(format!("cases, book {index}: {}", printed.error));
    }
    std::fs::remove_file(path)?;
    Ok(part)
}

/// A `run` line.
struct Case {
    registers: Registers,
    grants: Vec<Grant>,
    bytes: BTreeMap<u16, u8>,
    budget: u16,
}

impl Case {
    fn random(random: &mut Random, book: &Book, readings: &Readings, kinds: &[WordKind]) -> Case {
        let budget = match random.below(100) {
            0..=87 => 1,
            88 => 0,
            _ => random.between(2, LONGEST_TURN) as u16,
        };
        let words = if budget > 1 { random.between(1, 12) } else { 1 };
        let mut registers = values::registers(random);
        let mut bytes = BTreeMap::new();
        let mut at = registers.s & !1;
        for _ in 0..words {
            let word = values::word(random, book, kinds);
            let word = aim(random, readings, word, &mut registers);
            let [high, low] = word.to_be_bytes();
            bytes.insert(at, high);
            bytes.insert(at | 1, low);
            at = at.wrapping_add(2);
        }
        let (bytes, touched) = rehearse(random, readings, &registers, bytes, budget);
        Case {
            grants: if budget > 1 && random.percent(30) {
                everything(&touched)
            } else {
                grants(random, registers.s, &touched)
            },
            registers,
            bytes,
            budget,
        }
    }

    fn write_line(&self, label: usize, line: &mut String) {
        let grants: Vec<String> = self
            .grants
            .iter()
            .map(|grant| {
                let kind = match grant.kind {
                    Kind::Read => 'r',
                    Kind::Write => 'w',
                };
                format!("{kind}:{}:{}", grant.first, grant.last)
            })
            .collect();
        writeln!(
            line,
            "run {label} {} {} {} {}",
            self.registers,
            list(grants),
            list(runs(&self.bytes)),
            self.budget
        )
        .expect("writing to a string");
    }

    fn store(&self) -> Owned {
        let mut store = Owned::zero();
        for (&at, &byte) in &self.bytes {
            store.write(at, byte);
        }
        store
    }

    /// The answer line that this machine gives.
    fn answer(&self, label: usize, readings: &Readings) -> String {
        let before = self.store();
        let mut store = before.clone();
        let mut registers = self.registers;
        let mut grants = Grants::new(self.grants.clone());
        let Turn { steps, stop } = turn(
            readings,
            &mut grants,
            &mut store,
            &mut registers,
            self.budget,
        );
        let outcome = match stop {
            None => "spent".into(),
            Some(stop) => format!("stopped {stop}"),
        };
        let changed: Vec<String> = before
            .bytes()
            .iter()
            .zip(store.bytes())
            .enumerate()
            .filter(|(_, (before, after))| before != after)
            .map(|(at, (_, after))| format!("{at}:{after:02X}"))
            .collect();
        format!("{label} {steps} {outcome} {registers} {}", list(changed))
    }

    /// Notes what the steps of the turn meet.
    fn cover(&self, readings: &Readings, coverage: &mut Coverage) {
        let mut store = Watched::new(self.store());
        let mut grants = Grants::new(self.grants.clone());
        let mut now = self.registers;
        let budget = match self.budget {
            0 => "0",
            1 => "1",
            _ => "more",
        };
        for _ in 0..self.budget {
            let before = now;
            let at = before.s & !1;
            let word = u16::from_be_bytes([store.below.read(at), store.below.read(at | 1)]);
            let reading = readings.get(word);
            if let Err(stop) = step(readings, &mut grants, &mut store, &mut now) {
                cover_stop(coverage, reading, stop);
                coverage.note("turns", format!("budget {budget}"), "stopped");
                return;
            }
            if let Reading::Defined(instruction) = reading {
                cover_completed(coverage, instruction, &before, &now);
                cover_accesses(coverage, instruction, &self.grants, &store.take_accesses());
            }
        }
        coverage.note("turns", format!("budget {budget}"), "spent");
    }
}

/// Items parted by commas, or a dash.
fn list(items: Vec<String>) -> String {
    if items.is_empty() {
        "-".into()
    } else {
        items.join(",")
    }
}

/// Bytes as `ADDR:HEX`, neighbours together.
fn runs(bytes: &BTreeMap<u16, u8>) -> Vec<String> {
    let mut runs: Vec<(u16, Vec<u8>)> = Vec::new();
    for (&at, &byte) in bytes {
        match runs.last_mut() {
            Some((first, run)) if usize::from(*first) + run.len() == usize::from(at) => {
                run.push(byte)
            }
            _ => runs.push((at, vec![byte])),
        }
    }
    runs.iter()
        .map(|(first, run)| format!("{first}:{}", hex_or_dash(run)))
        .collect()
}

/// Alters registers, or a word, such that it does more than it would by chance.
fn aim(random: &mut Random, readings: &Readings, word: u16, registers: &mut Registers) -> u16 {
    let Reading::Defined(instruction) = readings.get(word) else {
        return word;
    };
    match instruction.name {
        Name::BITX if random.percent(80) => {
            let control = values::control_byte(random) as u16;
            word & 0xFF00 | control.wrapping_sub(registers.x as u16) & 0xFF
        }
        name if name.is_string() && random.percent(75) => {
            registers.x = random.between(-5, 5) as i16;
            if random.percent(30) {
                registers.a &= !0xF7;
            }
            word
        }
        Name::AD | Name::SB | Name::CP | Name::ADL | Name::SBL | Name::CPL
            if random.percent(15) =>
        {
            let edge = *random.pick(&[i32::MIN, i32::MAX, 0, -1]);
            registers.a = edge.wrapping_add(random.between(-300, 300) as i32);
            word
        }
        Name::DX if random.percent(20) => {
            registers.x = i16::MIN;
            word
        }
        _ => word,
    }
}

/// How a byte was touched.
#[derive(Clone, Copy, Default)]
struct Touch {
    fetched: bool,
    written: bool,
}

impl Touch {
    /// The grant that a byte needs: one to be read for what is obeyed, unless it is written too.
    fn kind(self) -> Kind {
        if self.written {
            Kind::Write
        } else {
            Kind::Read
        }
    }
}

/// Does the turn under grants of everything over a store that makes its bytes
/// up. Gives these bytes, and all that were touched.
fn rehearse(
    random: &mut Random,
    readings: &Readings,
    registers: &Registers,
    given: BTreeMap<u16, u8>,
    budget: u16,
) -> (BTreeMap<u16, u8>, BTreeMap<u16, Touch>) {
    let few_values = random.percent(20);
    let fullword = |random: &mut Random| match random.below(10) {
        _ if few_values => [0; 4].map(|_| *random.pick(&[0, 0, 0, 1, 8])),
        0..=2 => values::fullword(random).to_be_bytes(),
        3..=6 => {
            let [a, b] = values::halfword(random).to_be_bytes();
            let [c, d] = values::halfword(random).to_be_bytes();
            [a, b, c, d]
        }
        7 => [0; 4],
        8 => [values::address(random), values::address(random)]
            .map(u16::to_be_bytes)
            .concat()
            .try_into()
            .expect("two halfwords are four bytes"),
        _ => random.u32().to_be_bytes(),
    };
    let own_random = Random::new(random.u64());
    let mut store = Watched::new(MadeUp::new(given, own_random, fullword));
    let kinds = [Kind::Read, Kind::Write];
    let mut everything = Grants::new(kinds.map(|kind| Grant::new(kind, 0, u16::MAX)).into());
    let mut registers = *registers;
    let mut touched: BTreeMap<u16, Touch> = BTreeMap::new();
    for _ in 0..budget {
        for at in [registers.s & !1, registers.s | 1] {
            touched.entry(at).or_default().fetched = true;
        }
        if step(readings, &mut everything, &mut store, &mut registers).is_err() {
            break;
        }
    }
    for (access, at) in store.take_accesses() {
        touched.entry(at).or_default().written |= access == Kind::Write;
    }
    (store.below.into_first_bytes(), touched)
}

/// Grants of the whole store: what is obeyed is to be read, where the program does not alter
/// it and there are not too many parts of it, and all else to be written.
fn everything(touched: &BTreeMap<u16, Touch>) -> Vec<Grant> {
    let mut grants: Vec<Grant> = Vec::new();
    let mut next = Some(0);
    for at in touched
        .iter()
        .filter(|(_, touch)| touch.fetched)
        .map(|(&at, _)| at)
    {
        match grants.last_mut() {
            Some(code) if code.kind == Kind::Read && code.last + 1 == at => code.last = at,
            _ => {
                if let Some(first) = next.filter(|&first| first < at) {
                    grants.push(Grant::new(Kind::Write, first, at - 1));
                }
                grants.push(Grant::new(Kind::Read, at, at));
            }
        }
        next = at.checked_add(1);
    }
    if let Some(first) = next {
        grants.push(Grant::new(Kind::Write, first, u16::MAX));
    }
    let alters_itself = touched.values().any(|touch| touch.fetched && touch.written);
    if alters_itself || grants.len() > MOST {
        return vec![Grant::new(Kind::Write, 0, u16::MAX)];
    }
    grants
}

/// Grants such that the program is mostly fetched, from where it may be read, and about
/// half of what it touches besides is granted. No two of them clash.
fn grants(random: &mut Random, s: u16, touched: &BTreeMap<u16, Touch>) -> Vec<Grant> {
    match random.below(100) {
        0..=1 => return vec![],
        2..=11 => return everything(touched),
        12..=14 => return vec![Grant::new(Kind::Read, 0, u16::MAX)],
        _ => {}
    }
    let mut wanted = Vec::new();
    for range in ranges(random, touched) {
        grant_some(random, range, &mut wanted);
    }
    if random.percent(10) {
        let first = values::address(random);
        let last = first.saturating_add(random.below(3000) as u16);
        let kind = *random.pick(&[Kind::Read, Kind::Write]);
        wanted.push(Grant::new(kind, first, last));
    }
    random.shuffle(&mut wanted);
    if random.percent(95) {
        // seldom from where it may be written too
        let kind = if random.percent(4) {
            Kind::Write
        } else {
            Kind::Read
        };
        wanted.insert(0, Grant::new(kind, s & !1, s | 1));
    }
    let mut grants: Vec<Grant> = Vec::new();
    for grant in wanted {
        if grants.len() < MOST && !grants.iter().any(|other| other.clashes(&grant)) {
            grants.push(grant);
        }
    }
    random.shuffle(&mut grants);
    grants
}

/// The touched bytes as ranges of one kind each, what is obeyed apart.
fn ranges(random: &mut Random, touched: &BTreeMap<u16, Touch>) -> Vec<Range> {
    let gap = *random.pick(&[1, 1, 1, 2, 4, 50]);
    let mut ranges: Vec<Range> = Vec::new();
    for (&at, touch) in touched {
        let (kind, code) = (touch.kind(), touch.fetched);
        match ranges.last_mut() {
            Some(range)
                if range.grant.kind == kind
                    && range.code == code
                    && at - range.grant.last <= gap =>
            {
                range.grant.last = at
            }
            _ => ranges.push(Range {
                grant: Grant::new(kind, at, at),
                code,
            }),
        }
    }
    ranges
}

/// The grant that touched bytes need, and whether they are obeyed.
struct Range {
    grant: Grant,
    code: bool,
}

/// Adds grants for a range, or for a part of it, or none.
fn grant_some(random: &mut Random, range: Range, grants: &mut Vec<Grant>) {
    let Grant { kind, first, last } = range.grant;
    let enough = match kind {
        Kind::Read if range.code => Kind::Read,
        Kind::Read => *random.pick(&[Kind::Read, Kind::Read, Kind::Write]),
        Kind::Write => Kind::Write,
    };
    let inside = first + random.below(usize::from(last - first) + 1) as u16;
    match random.below(100) {
        0..=24 => grants.push(Grant::new(enough, first, last)),
        25..=61 => grants.push(Grant::new(
            enough,
            first.saturating_sub(random.below(4) as u16),
            last.saturating_add(random.below(4) as u16),
        )),
        62..=69 => grants.push(Grant::new(Kind::Read, first, last)),
        70..=75 if inside > first => grants.push(Grant::new(enough, first, inside - 1)),
        76..=81 if inside < last => grants.push(Grant::new(enough, inside + 1, last)),
        82..=91 if inside > first => {
            grants.push(Grant::new(enough, first, inside - 1));
            let other = if kind == Kind::Read && random.bool() {
                Kind::Read
            } else {
                enough
            };
            grants.push(Grant::new(other, inside, last));
        }
        92..=93 if first < inside && inside < last => {
            grants.push(Grant::new(enough, first, inside - 1));
            grants.push(Grant::new(enough, inside + 1, last));
        }
        _ => {}
    }
}

fn cover_stop(coverage: &mut Coverage, reading: Reading, stop: Stop) {
    let row = format!("cause {}", stop.cause.number());
    let name = match reading {
        Reading::Defined(instruction) => Some(instruction.name),
        _ => None,
    };
    match stop.cause {
        Cause::Refused { purpose, .. } => {
            let what = place(purpose);
            coverage.note("stops", row, what);
            if let (Some(name), true) = (name, purpose != Use::Fetch) {
                coverage.note("refused accesses", name, what);
            }
        }
        _ => coverage.note("stops", row, name.map_or("undefined word", Name::text)),
    }
}

fn place(purpose: Use) -> &'static str {
    match purpose {
        Use::Fetch => "place 1",
        Use::Pointer => "place 2",
        Use::Operand => "place 3 read",
        Use::Result => "place 3 write",
    }
}

fn cover_completed(
    coverage: &mut Coverage,
    instruction: Instruction,
    before: &Registers,
    after: &Registers,
) {
    let Instruction {
        name, format, m, ..
    } = instruction;
    coverage.note("completed", name, format);
    if format.m_bits() > 0 {
        coverage.note("bases", format, format!("M {m}"));
    }
    coverage.note(
        "next addresses",
        "s",
        if before.s & 1 == 0 { "even" } else { "odd" },
    );
    if before.s >= 0xFFFE {
        coverage.note("next addresses", "s", "past 65535");
    }
    if name.is_conditional_branch() {
        let taken = match name {
            Name::BZ => before.zr,
            Name::BNZ => !before.zr,
            Name::BN => before.n,
            Name::BNN => !before.n,
            Name::BCA => before.ca,
            _ => before.of,
        };
        coverage.note("branches", name, if taken { "taken" } else { "not taken" });
    }
    if name.is_string() {
        let how = match (before.x, after.x) {
            (0, _) => "complete at x 0",
            (_, 0) => "completed",
            _ if after.s == before.s => "goes on",
            _ if after.n => "ends, N 1",
            _ => "ends, N 0",
        };
        coverage.note("strings", name, how);
    }
    let control = match name {
        Name::BITL => Some(instruction.d as u8),
        Name::BITX => Some(instruction.d.wrapping_add(before.x) as u8),
        _ => None,
    };
    if let Some(operation) = control.and_then(Operation::of) {
        coverage.note(
            "bit operations",
            name,
            format!("{operation:?} ZR {}", u8::from(after.zr)),
        );
    }
    if has_result(name) {
        for (marker, value) in [("N", after.n), ("ZR", after.zr), ("CA", after.ca)] {
            coverage.note("markers", name, format!("{marker} {}", u8::from(value)));
        }
        if after.of && !before.of {
            coverage.note("markers", name, "OF raised");
        }
        if after.of && before.of {
            coverage.note("markers", name, "OF kept");
        }
    }
}

/// Whether N and ZR tell the result.
fn has_result(name: Name) -> bool {
    use Name::*;
    let is_arithmetic = adds(name) || matches!(name, ML | MX | DX);
    is_arithmetic
        || matches!(
            name,
            LDB | LD | LDW | LDL | LDX | STB | ST | STW | STX | NW | NL | NX
        )
}

/// Whether all four markers tell the result.
fn adds(name: Name) -> bool {
    use Name::*;
    matches!(
        name,
        AD | ADW | ADL | ADX | SB | SBW | SBL | SBX | CP | CPW | CPL | CPX
    )
}

fn cover_accesses(
    coverage: &mut Coverage,
    instruction: Instruction,
    grants: &[Grant],
    accesses: &[(Kind, u16)],
) {
    if !instruction.format.is_a() {
        return;
    }
    let item = usize::from(instruction.name.operand_length());
    let (access, last) = accesses[accesses.len() - 1];
    let (_, first) = accesses[accesses.len() - item];
    let in_one = grants
        .iter()
        .any(|grant| grant.allows(access) && grant.has(first) && grant.has(last));
    let how = if in_one {
        "in one grant"
    } else {
        "across grants"
    };
    coverage.note("completed operands", format!("{item} bytes, {access}"), how);
}

fn expect(part: &mut Part) {
    for &name in Name::ALL.iter().filter(|name| **name != Name::HRK) {
        for format in values::formats(name) {
            part.expect("completed", name, format);
        }
    }
    for format in [Format::A2, Format::A4, Format::A5] {
        for m in 0..4 {
            part.expect("bases", format, format!("M {m}"));
        }
    }
    for column in ["even", "odd", "past 65535"] {
        part.expect("next addresses", "s", column);
    }
    for column in ["undefined word", "BITL", "BITX"] {
        part.expect("stops", "cause 1", column);
    }
    for purpose in [Use::Fetch, Use::Pointer, Use::Operand, Use::Result] {
        part.expect("stops", "cause 2", place(purpose));
    }
    part.expect("stops", "cause 3", Name::HRK);
    for &name in Name::ALL.iter().filter(|name| name.class() == Class::A) {
        use Name::*;
        part.expect("stops", "cause 4", name);
        part.expect("refused accesses", name, place(Use::Pointer));
        let stores = matches!(name, STB | ST | STW | STX | STY | STZ);
        let purpose = if stores { Use::Result } else { Use::Operand };
        part.expect("refused accesses", name, place(purpose));
    }
    expect_strings(part);
    for &name in Name::ALL.iter().filter(|name| name.is_conditional_branch()) {
        part.expect("branches", name, "taken");
        part.expect("branches", name, "not taken");
    }
    for name in [Name::BITL, Name::BITX] {
        for column in [
            "Test ZR 0",
            "Test ZR 1",
            "Toggle ZR 0",
            "Toggle ZR 1",
            "Place ZR 0",
            "Set ZR 0",
            "Clear ZR 0",
            "Clear ZR 1",
        ] {
            part.expect("bit operations", name, column);
        }
    }
    expect_markers(part);
    for row in [
        "2 bytes, read",
        "4 bytes, read",
        "2 bytes, write",
        "4 bytes, write",
    ] {
        part.expect("completed operands", row, "in one grant");
        part.expect("completed operands", row, "across grants");
    }
    part.expect("turns", "budget 0", "spent");
    for row in ["budget 1", "budget more"] {
        part.expect("turns", row, "spent");
        part.expect("turns", row, "stopped");
    }
}

fn expect_strings(part: &mut Part) {
    for &name in Name::ALL.iter().filter(|name| name.is_string()) {
        use Name::*;
        part.expect("refused accesses", name, place(Use::Operand));
        if matches!(name, MBS | MHS | TRBS) {
            part.expect("refused accesses", name, place(Use::Result));
        }
        for column in ["complete at x 0", "completed", "goes on"] {
            part.expect("strings", name, column);
        }
    }
    part.expect("strings", Name::CPBS, "ends, N 0");
    part.expect("strings", Name::CPBS, "ends, N 1");
    part.expect("strings", Name::SCBS, "ends, N 0");
}

fn expect_markers(part: &mut Part) {
    for &name in Name::ALL.iter().filter(|name| has_result(**name)) {
        use Name::*;
        part.expect("markers", name, "N 0");
        part.expect("markers", name, "ZR 0");
        part.expect("markers", name, "ZR 1");
        part.expect("markers", name, "OF kept");
        if !matches!(name, LDB | LDL | STB | NL) {
            part.expect("markers", name, "N 1");
        }
        if adds(name) || matches!(name, ST | ML | MX | DX) {
            part.expect("markers", name, "OF raised");
        }
        if adds(name) {
            part.expect("markers", name, "CA 0");
            part.expect("markers", name, "CA 1");
        }
    }
}
