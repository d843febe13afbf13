//! Random histories of halls, through `calls`.

use super::coverage::Coverage;
use super::part::{self, in_parallel, Part};
use super::values::{self, Kind as WordKind};
use super::{books, damage, Context};
use crate::book::Book;
use crate::grants::{Grant, Kind};
use crate::hall::{Hall, Stage, BAYS};
use crate::program::Printed;
use crate::random::Random;
use crate::registers::Registers;
use crate::session::{Call, Reply, Request, Session};
use crate::step::{Cause, Stop};
use crate::store::{Mapped, Owned, Store, Table, PAGES, SIZE};
use std::io;
use std::path::{Path, PathBuf};

pub(super) fn compare(context: &Context) -> io::Result<Part> {
    let mut part = in_parallel(
        context.settings.histories,
        context.settings.threads,
        |index| compare_one(context, index),
    )?;
    expect(&mut part);
    Ok(part)
}

fn compare_one(context: &Context, index: usize) -> io::Result<Part> {
    let mut random = Random::part(context.settings.seed, 2, index as u64);
    let inputs = Inputs::random(&mut random);
    let mut part = Part::default();
    let played = inputs.play(&mut random, &mut part.coverage);
    let script = Script::random(&mut random, &played, &mut part.coverage);
    let ours = script.answers(&played);

    let name = |what: &str| format!("history-{index}.{what}");
    let book = context.scratch.file(&name("book"), &inputs.book)?;
    let image = context.scratch.file(&name("image"), &inputs.image)?;
    let mut arguments: Vec<&Path> = vec![&book, &image];
    let table = match &inputs.table {
        Some(table) => Some(context.scratch.file(&name("table"), table)?),
        None => None,
    };
    arguments.extend(table.as_deref());
    let programs = &context.settings.programs;
    let printed = programs.run("calls", &arguments, &script.text)?;
    for path in arguments {
        std::fs::remove_file(path)?;
    }

    let alike = ours == printed.output && script.ends_like(&printed);
    part.compare_whole(alike, || {
        let folder = inputs.keep(index, &script, &ours, &printed);
        script.difference(&ours, &printed, &folder)
    });
    Ok(part)
}

/// What a history comes to by this machine.
enum Played {
    /// The answer in place of a hall: its book, image or table is refused.
    NoHall(String),
    History(Vec<(Request, Reply)>),
}

/// The text for `calls`.
struct Script {
    text: String,
    /// A line that is no call.
    bad_line: Option<usize>,
}

impl Script {
    fn random(random: &mut Random, played: &Played, coverage: &mut Coverage) -> Script {
        let Played::History(calls) = played else {
            let text = "open 1\nlook 1\n".into();
            return Script {
                text,
                bad_line: None,
            };
        };
        let mut lines = Vec::new();
        for (request, _) in calls {
            if random.percent(2) {
                lines.push(random.pick(&["", "#", "# a note", "#open 1"]).to_string());
            }
            let line = request.to_string();
            let small_digits = matches!(request.call, Call::Load(..)) && random.percent(20);
            lines.push(if small_digits {
                line.to_lowercase()
            } else {
                line
            });
        }
        let bad_line = random.percent(5).then(|| {
            let at = random.below(lines.len() + 1);
            let bad = *random.pick(&BAD_LINES);
            coverage.note("bad lines", bad, "");
            lines.insert(at, bad.into());
            at + 1
        });
        let text = lines.iter().map(|line| format!("{line}\n")).collect();
        Script { text, bad_line }
    }

    fn answers(&self, played: &Played) -> String {
        match played {
            _ if self.bad_line.is_some() => String::new(),
            Played::NoHall(refusal) => format!("{refusal}\n"),
            Played::History(calls) => calls
                .iter()
                .map(|(_, reply)| format!("{reply}\n"))
                .collect(),
        }
    }

    /// Whether the program ended as it should: a bad line is told by its number.
    fn ends_like(&self, printed: &Printed) -> bool {
        match self.bad_line {
            None => printed.succeeded,
            Some(line) => {
                let mut numbers = printed.error.split(|c: char| !c.is_ascii_digit());
                !printed.succeeded && numbers.any(|number| number == line.to_string())
            }
        }
    }

    fn difference(&self, ours: &str, printed: &Printed, folder: &Path) -> String {
        let theirs = &printed.output;
        let line = ours
            .lines()
            .zip(theirs.lines())
            .take_while(|(ours, theirs)| ours == theirs)
            .count();
        let nth = |text: &str| text.lines().nth(line).unwrap_or("(nothing)").to_string();
        let mut calls = self.text.lines().filter(|line| is_call(line));
        format!(
            "in {}, {}: {}\n  ours:   {}\n  theirs: {}\n  error:  {}",
            folder.display(),
            match self.bad_line {
                Some(line) => format!("bad line {line}"),
                None => format!("call {}", line + 1),
            },
            calls.nth(line).unwrap_or("(none)"),
            nth(ours),
            nth(theirs),
            printed.error,
        )
    }
}

fn is_call(line: &str) -> bool {
    !line.is_empty() && !line.starts_with('#')
}

/// Lines that are no calls.
const BAD_LINES: [&str; 24] = [
    "open",
    "open 1 1",
    "open -1",
    "open 01",
    "open 4294967296",
    "Open 1",
    "jump 1",
    "grant 1 read 5",
    "grant 1 both 5 6",
    "grant 1 read 5 65536",
    "load 1 5",
    "load 1 5 1",
    "load 1 5 1G",
    "load 1 65536 -",
    "set 1 0 0 0 0 0 0 0 0 0 0 0",
    "set 1 0 0 0 0 0 0 0 0 0 0 0 2",
    "set 1 0 0 65536 0 0 0 0 0 0 0 0 0",
    "set 1 4294967296 0 0 0 0 0 0 0 0 0 0 0",
    "set 1 0 0 -1 0 0 0 0 0 0 0 0 0",
    "turn 1 65536",
    "turn 1 -",
    "copy 1 0 4294967296",
    "copy 1 65536 0",
    "close 1 #",
];

/// The files of a history.
struct Inputs {
    book: Vec<u8>,
    image: Vec<u8>,
    table: Option<String>,
}

impl Inputs {
    fn random(random: &mut Random) -> Inputs {
        let book = match random.below(100) {
            0..=3 => damage::damaged(random).0,
            _ => {
                let missing = *random.pick(&[0, 0, 0, 30, 100]);
                books::good_text(random, missing).into_bytes()
            }
        };
        let words = match Book::read(&book) {
            Ok(book) => {
                let kinds = values::weighted_kinds(&book);
                let gentle = random.bool();
                (0..200)
                    .map(|_| match gentle {
                        true => values::gentle_word(random, &book, &kinds),
                        false => values::word(random, &book, &kinds),
                    })
                    .collect()
            }
            Err(_) => vec![0],
        };
        let mut image = image(random, &words);
        if random.percent(2) {
            let size = *random.pick(&[0, 1, 100, SIZE - 1, SIZE + 1, SIZE * 2]);
            image.resize(size, 0);
        }
        let table = random.percent(25).then(|| table(random));
        Inputs { book, image, table }
    }

    fn play(&self, random: &mut Random, coverage: &mut Coverage) -> Played {
        let book = match Book::read(&self.book) {
            Ok(book) => book,
            Err(refusal) => {
                coverage.note("inputs", "book", format!("refused {}", refusal.number));
                return Played::NoHall(refusal.to_string());
            }
        };
        let Some(image) = Owned::from_image(&self.image) else {
            coverage.note("inputs", "image", "refused 8");
            return Played::NoHall("refused 8".into());
        };
        let Some(table) = &self.table else {
            coverage.note("inputs", "table", "none");
            return Player::play(random, Session::new(image, &book), &book, coverage);
        };
        match Table::read(table) {
            None => {
                coverage.note("inputs", "table", "refused 9");
                Played::NoHall("refused 9".into())
            }
            Some(table) => {
                coverage.note("inputs", "table", "given");
                let store = Mapped::new(image, table);
                Player::play(random, Session::new(store, &book), &book, coverage)
            }
        }
    }

    /// Keeps the files of a differing history.
    fn keep(&self, index: usize, script: &Script, ours: &str, printed: &Printed) -> PathBuf {
        let mut files = vec![
            ("book", self.book.as_slice()),
            ("image", &self.image),
            ("script", script.text.as_bytes()),
            ("ours", ours.as_bytes()),
            ("theirs", printed.output.as_bytes()),
        ];
        if let Some(table) = &self.table {
            files.push(("table", table.as_bytes()));
        }
        part::keep(&format!("history-{index}"), &files)
    }
}

/// Mostly words that a bay can obey from where it may read.
fn image(random: &mut Random, words: &[u16]) -> Vec<u8> {
    match random.below(12) {
        0 => vec![0; SIZE],
        1 => (0..SIZE).map(|_| random.u8()).collect(),
        _ => (0..SIZE / 2)
            .flat_map(|_| random.pick(words).to_be_bytes())
            .collect(),
    }
}

fn table(random: &mut Random) -> String {
    let mut pages: Vec<usize> = (0..PAGES).collect();
    random.shuffle(&mut pages);
    match random.below(50) {
        0 => {
            pages.pop();
        }
        1 => pages.push(random.below(PAGES)),
        2 => pages[random.below(PAGES)] = 64,
        3 => pages[0] = pages[random.between(1, 63) as usize],
        4 => pages.clear(),
        _ => {}
    }
    pages.iter().map(|page| format!("{page}\n")).collect()
}

/// Chooses requests by what the hall holds, so that many of them do something.
struct Player<'a, S> {
    random: &'a mut Random,
    session: Session<S>,
    book: &'a Book,
    kinds: Vec<WordKind>,
    /// Most requests are for the bays from 1 to this one.
    lively: usize,
    /// Where each bay's last program was loaded.
    programs: [Option<u16>; BAYS],
}

impl<S: Store> Player<'_, S> {
    fn play(
        random: &mut Random,
        session: Session<S>,
        book: &Book,
        coverage: &mut Coverage,
    ) -> Played {
        let lively = *random.pick(&[1, 2, 2, 3, 4, 6, BAYS]);
        let length = random.between(20, 200);
        let mut player = Player {
            random,
            session,
            book,
            kinds: values::weighted_kinds(book),
            lively,
            programs: [None; BAYS],
        };
        let calls = (0..length).map(|_| {
            let request = player.request();
            let reply = player.session.serve(&request);
            player.remember(&request, &reply);
            cover(coverage, &request, &reply);
            (request, reply)
        });
        Played::History(calls.collect())
    }

    fn remember(&mut self, request: &Request, reply: &Reply) {
        if let (Call::Load(address, bytes), Reply::Done) = (&request.call, reply) {
            if bytes.len() >= 4 && address % 2 == 0 {
                self.programs[request.bay as usize - 1] = Some(*address);
            }
        }
    }

    fn hall(&self) -> &Hall<S> {
        self.session.hall()
    }

    fn request(&mut self) -> Request {
        let bay = match self.random.below(100) {
            0..=2 => *self
                .random
                .pick(&[0, 9, 10, 255, 256, 257, 65_537, u32::MAX]),
            3..=79 => self.random.between(1, self.lively as i64) as u32,
            _ => self.random.between(1, BAYS as i64) as u32,
        };
        let call = match self.grants_of(bay) {
            Some(grants) => self.call(bay as usize, &grants),
            None => self.any_call(1, &[]),
        };
        Request { bay, call }
    }

    fn grants_of(&self, bay: u32) -> Option<Vec<Grant>> {
        let bay = bay as usize;
        (1..=BAYS)
            .contains(&bay)
            .then(|| self.hall().grants(bay).to_vec())
    }

    fn call(&mut self, bay: usize, grants: &[Grant]) -> Call {
        let chance = self.random.below(100);
        match (self.hall().stage(bay), chance) {
            (_, 92..) => self.any_call(bay, grants),
            (Stage::Free, _) => Call::Open,
            (Stage::InPreparation, 0..=77) if !has_both_kinds(grants) => self.grant(),
            (Stage::InPreparation, 0..=37) => self.grant(),
            (Stage::InPreparation, 38..=55) => self.load(grants),
            (Stage::InPreparation, 56..=67) => self.set(bay, grants),
            (Stage::InPreparation, 68..=77) => Call::Seal,
            (Stage::InPreparation, 78..=81) => Call::Look,
            (Stage::InPreparation, 82..=88) => self.copy(grants),
            (Stage::InPreparation, _) => Call::Close,
            (Stage::Sealed, 0..=54) if self.should_set(bay) => self.set(bay, grants),
            (Stage::Sealed, 0..=54) => self.turn(),
            (Stage::Sealed, 55..=69) => self.load(grants),
            (Stage::Sealed, 70..=78) => Call::Look,
            (Stage::Sealed, 79..=88) => self.copy(grants),
            (Stage::Sealed, _) => Call::Close,
        }
    }

    /// Mostly a stopped bay is set, and one that runs has a turn.
    fn should_set(&mut self, bay: usize) -> bool {
        let stopped = self.hall().stop(bay).is_some();
        self.random.percent(if stopped { 75 } else { 20 })
    }

    fn any_call(&mut self, bay: usize, grants: &[Grant]) -> Call {
        match self.random.below(9) {
            0 => Call::Open,
            1 => self.grant(),
            2 => self.load(grants),
            3 => self.set(bay, grants),
            4 => Call::Seal,
            5 => self.turn(),
            6 => Call::Look,
            7 => self.copy(grants),
            _ => Call::Close,
        }
    }

    fn grant(&mut self) -> Call {
        let kind = *self.random.pick(&[Kind::Read, Kind::Write]);
        let there: Vec<Grant> = (1..=BAYS)
            .flat_map(|bay| self.hall().grants(bay).to_vec())
            .collect();
        let first = if !there.is_empty() && self.random.percent(25) {
            let neighbour = *self.random.pick(&there);
            let edge = *self.random.pick(&[neighbour.first, neighbour.last]);
            values::near(self.random, edge, 2)
        } else {
            values::address(self.random)
        };
        let length = match self.random.below(20) {
            0..=1 => 1,
            2..=4 => self.random.below(8),
            5..=11 => self.random.below(120),
            12..=17 => self.random.below(2_500),
            18 => self.random.below(SIZE),
            _ => return Call::Grant(kind, first, first.saturating_sub(1)),
        };
        match self.random.below(200) {
            0 => Call::Grant(kind, 0, u16::MAX),
            1..=6 => Call::Grant(kind, first, values::address(self.random)),
            _ => Call::Grant(kind, first, first.saturating_add(length as u16)),
        }
    }

    /// An address in one of the grants, or near one, or anywhere.
    fn place(&mut self, grants: &[Grant]) -> u16 {
        if grants.is_empty() || self.random.percent(6) {
            return values::address(self.random);
        }
        let grant = *self.random.pick(grants);
        let length = usize::from(grant.last - grant.first) + 1;
        match self.random.below(10) {
            0 => values::near(self.random, grant.first, 2),
            1 => values::near(self.random, grant.last, 2),
            2..=5 => grant.first + self.random.below(length.min(40)) as u16,
            _ => grant.first + self.random.below(length) as u16,
        }
    }

    /// An address that is mostly well inside a grant, and mostly one of a read grant.
    fn code_place(&mut self, grants: &[Grant]) -> u16 {
        if grants.is_empty() || self.random.percent(15) {
            return self.place(grants);
        }
        let readable: Vec<Grant> = grants
            .iter()
            .copied()
            .filter(|grant| grant.kind == Kind::Read)
            .collect();
        let grant = match readable.is_empty() || self.random.percent(5) {
            true => *self.random.pick(grants),
            false => *self.random.pick(&readable),
        };
        let length = usize::from(grant.last - grant.first) + 1;
        grant.first + self.random.below(length.min(30)) as u16
    }

    fn load(&mut self, grants: &[Grant]) -> Call {
        let writable: Vec<Grant> = grants
            .iter()
            .copied()
            .filter(|grant| grant.kind == Kind::Write || self.random.percent(10))
            .collect();
        let address = self.place(&writable);
        let most = *self.random.pick(&[1, 4, 16, 60]);
        let length = self.random.below(most + 1);
        let gentle = self.random.percent(60);
        let bytes = (0..length.div_ceil(2))
            .map(|_| match gentle {
                true => values::gentle_word(self.random, self.book, &self.kinds),
                false => values::word(self.random, self.book, &self.kinds),
            })
            .flat_map(u16::to_be_bytes)
            .take(length)
            .collect();
        let address = if self.random.percent(70) {
            address & !1
        } else {
            address
        };
        Call::Load(address, bytes)
    }

    fn set(&mut self, bay: usize, grants: &[Grant]) -> Call {
        let mut registers = values::registers(self.random);
        if self.random.percent(90) {
            registers = Registers {
                s: self.code_place(grants),
                l: self.place(grants),
                y: self.place(grants),
                z: self.place(grants),
                fm: self.random.percent(4),
                ..registers
            };
        }
        if self.random.percent(70) {
            registers.x = self.random.between(-9, 9) as i16;
        }
        if self.random.percent(80) {
            registers.s &= !1;
        }
        if let Some(program) = self.programs[bay - 1] {
            if self.random.percent(8) {
                registers.s = program;
            }
        }
        Call::Set(registers)
    }

    fn turn(&mut self) -> Call {
        let most = *self.random.pick(&[0, 1, 2, 10, 60, 60, 1_000]);
        let budget = self.random.below(most + 1) as u16;
        Call::Turn(if self.random.percent(1) {
            u16::MAX
        } else {
            budget
        })
    }

    fn copy(&mut self, grants: &[Grant]) -> Call {
        let address = self.place(grants);
        let length = match self.random.below(100) {
            0 => *self
                .random
                .pick(&[65_535, 65_536, 65_537, 70_000, u32::MAX]),
            1..=20 => {
                let end = grants.iter().find(|g| g.has(address)).map_or(0, |g| g.last);
                let to_end = u32::from(end.saturating_sub(address));
                to_end + self.random.below(3) as u32
            }
            _ => self.random.below(20) as u32,
        };
        Call::Copy(address, length)
    }
}

fn has_both_kinds(grants: &[Grant]) -> bool {
    [Kind::Read, Kind::Write]
        .iter()
        .all(|kind| grants.iter().any(|grant| grant.kind == *kind))
}

fn cover(coverage: &mut Coverage, request: &Request, reply: &Reply) {
    let outcome = match reply {
        Reply::NoHandle => "no handle".into(),
        Reply::Refused(refusal) => refusal.to_string(),
        Reply::Done => "done".into(),
        Reply::Turned(turn) => {
            if turn.steps > 1 {
                coverage.note("turns", "steps", "several");
            }
            turn.stop.map_or("spent".into(), how_stopped)
        }
        Reply::State(_, stop) => stop.map_or("running".into(), how_stopped),
        Reply::Bytes(bytes) if bytes.is_empty() => "no byte".into(),
        Reply::Bytes(_) => "bytes".into(),
    };
    coverage.note("calls", request.call.name(), outcome);
}

fn how_stopped(stop: Stop) -> String {
    match stop.cause {
        Cause::Refused { purpose, .. } => {
            format!("cause 2 place {} {}", purpose.place(), purpose.access())
        }
        cause => format!("cause {}", cause.number()),
    }
}

fn expect(part: &mut Part) {
    let stops = [
        "cause 1",
        "cause 2 place 1 read",
        "cause 2 place 2 read",
        "cause 2 place 3 read",
        "cause 2 place 3 write",
        "cause 3",
        "cause 4",
    ];
    let calls: [(&str, &[&str]); 9] = [
        ("open", &["done", "refused 1", "refused 3"]),
        (
            "grant",
            &["done", "refused 4", "refused 5", "refused 6", "no handle"],
        ),
        ("load", &["done", "refused 7", "no handle"]),
        ("set", &["done", "no handle"]),
        ("seal", &["done", "no handle"]),
        ("turn", &["spent", "no handle"]),
        ("look", &["running", "no handle"]),
        ("copy", &["bytes", "no byte", "refused 7", "no handle"]),
        ("close", &["done", "no handle"]),
    ];
    for (call, outcomes) in calls {
        for outcome in outcomes {
            part.expect("calls", call, outcome);
        }
    }
    for stop in stops {
        part.expect("calls", "turn", stop);
        part.expect("calls", "look", stop);
    }
    for number in 11..=15 {
        part.expect("inputs", "book", format!("refused {number}"));
    }
    for bad in BAD_LINES {
        part.expect("bad lines", bad, "");
    }
    part.expect("turns", "steps", "several");
    part.expect("inputs", "image", "refused 8");
    for outcome in ["none", "given", "refused 9"] {
        part.expect("inputs", "table", outcome);
    }
}
