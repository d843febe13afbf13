//! Measures steps a second, and processor instructions a step: this machine,
//! a plain interpreter in C, and the verified program `speed`.

use crate::book::Book;
use crate::grants::{Grant, Kind};
use crate::hall::{Hall, Sealed};
use crate::job::Job;
use crate::program::{bench_folder, Programs, Scratch};
use crate::store::Owned;
use std::ffi::OsString;
use std::fs;
use std::io;
use std::path::{Path, PathBuf};
use std::process::{Command, Output};
use std::time::Instant;

const ROUNDS: usize = 5;
/// Instructions are counted in runs of these lengths; what the longer takes more is steps alone.
const COUNTED_RUNS: [u64; 2] = [2, 6];
const JOB: &str = "undo.job";

pub struct Settings {
    pub programs: Programs,
    pub runs: u64,
    /// The folder of the sample.
    pub data: PathBuf,
}

/// The files of the sample, and the job with other grants.
struct Sample {
    book: PathBuf,
    image: PathBuf,
    records: PathBuf,
    job: Job,
    job_file: PathBuf,
}

/// What a machine did over one kind of store.
struct Measured {
    kind: String,
    steps: u64,
    microseconds: f64,
}

impl Measured {
    fn steps_a_second(&self) -> f64 {
        self.steps as f64 / self.microseconds * 1e6
    }
}

/// What runs a sample's job so many times.
#[derive(Clone, Copy, PartialEq)]
enum Machine {
    Ours,
    PlainC,
    Verified,
}

impl Machine {
    const ALL: [Machine; 3] = [Machine::Ours, Machine::PlainC, Machine::Verified];

    fn name(self) -> &'static str {
        match self {
            Machine::Ours => "independent, Rust",
            Machine::PlainC => "plain, C",
            Machine::Verified => "verified",
        }
    }
}

/// The executables.
struct Tools {
    ours: PathBuf,
    plain_c: PathBuf,
    verified: PathBuf,
}

pub fn run(settings: &Settings) -> io::Result<bool> {
    settings.programs.check(&["speed"])?;
    let scratch = Scratch::new()?;
    let tools = Tools {
        ours: std::env::current_exe()?,
        plain_c: scratch.path("plain"),
        verified: settings.programs.path("speed").canonicalize()?,
    };
    compile(&tools.plain_c)?;
    let own = own_grants(settings)?;
    let three = code_and_all_else(&own.job)?;
    let six = after_three_more(&three);
    let samples = [
        (
            "three grants: the code to be read, and all that is before and after it",
            sample(settings, &scratch, "three.job", three)?,
        ),
        (
            "the same after three grants that serve nothing",
            sample(settings, &scratch, "six.job", six)?,
        ),
        ("the sample's own five grants", own),
    ];
    for (_, sample) in &samples {
        tools.check_outcomes(sample)?;
    }
    let mut best: Vec<Best> = samples.iter().map(|_| Best::default()).collect();
    for _ in 0..ROUNDS {
        for ((_, sample), best) in samples.iter().zip(&mut best) {
            for machine in Machine::ALL {
                for measured in tools.measure(machine, sample, settings.runs)? {
                    best.take(machine, &measured);
                }
            }
            best.check_steps()?;
        }
    }
    println!(
        "{JOB}, {} runs of its first record, the best of {ROUNDS} rounds",
        settings.runs
    );
    let has_valgrind = Command::new("valgrind").arg("--version").output().is_ok();
    for ((title, sample), best) in samples.iter().zip(&best) {
        best.report(title);
        if has_valgrind {
            println!("{:<40} {:>17}", "", "instructions/step");
            for machine in Machine::ALL {
                let count = tools.instructions_a_step(machine, sample)?;
                let mean = if machine == Machine::Verified {
                    ", mean of its stores"
                } else {
                    ""
                };
                println!("{:<40} {count:>17.1}", format!("{}{mean}", machine.name()));
            }
        }
    }
    if !has_valgrind {
        println!("\nThere is no valgrind, so no instructions were counted.");
    }
    Ok(true)
}

/// The best of each machine and kind of store, in the order in which they came.
#[derive(Default)]
struct Best(Vec<(String, u64, f64)>);

impl Best {
    fn take(&mut self, machine: Machine, measured: &Measured) {
        let name = match measured.kind.as_str() {
            "" => machine.name().to_string(),
            kind => format!("{}, {kind}", machine.name()),
        };
        let speed = measured.steps_a_second();
        match self.0.iter_mut().find(|(other, ..)| *other == name) {
            Some((_, _, best)) => *best = best.max(speed),
            None => self.0.push((name, measured.steps, speed)),
        }
    }

    /// All take the same steps.
    fn check_steps(&self) -> io::Result<()> {
        let (_, ours, _) = self.0[0];
        match self.0.iter().find(|(_, steps, _)| *steps != ours) {
            None => Ok(()),
            Some((machine, steps, _)) => {
                Err(invalid(format!("{machine}: {steps} steps, not {ours}")))
            }
        }
    }

    fn report(&self, title: &str) {
        println!("\n{title}");
        println!("{:<40} {:>14} {:>10}", "", "steps/second", "ratio");
        let (_, _, ours) = self.0[0];
        for (machine, _, speed) in &self.0 {
            println!("{machine:<40} {speed:>14.0} {:>10.3}", speed / ours);
        }
    }
}

/// Three grants of the whole store: the one of the job that has its first instruction, to be
/// read, and what is before and after it, to be written.
fn code_and_all_else(job: &Job) -> io::Result<Vec<Grant>> {
    let has_code = |grant: &&Grant| grant.kind == Kind::Read && grant.has(job.registers.s);
    let code = *job
        .grants
        .iter()
        .find(has_code)
        .filter(|code| code.first > 6 && code.last < u16::MAX)
        .ok_or_else(|| {
            invalid(format!(
                "{JOB}: no read grant within the store has its code"
            ))
        })?;
    Ok(vec![
        Grant::new(Kind::Write, 6, code.first - 1),
        code,
        Grant::new(Kind::Write, code.last + 1, u16::MAX),
    ])
}

/// Three grants that serve no access, and then these.
fn after_three_more(grants: &[Grant]) -> Vec<Grant> {
    let others = (0..3).map(|i| Grant::new(Kind::Write, 2 * i, 2 * i + 1));
    others.chain(grants.iter().copied()).collect()
}

fn sample(
    settings: &Settings,
    scratch: &Scratch,
    name: &str,
    grants: Vec<Grant>,
) -> io::Result<Sample> {
    let mut sample = own_grants(settings)?;
    sample.job.grants = grants;
    sample.job.records = sample.records.display().to_string();
    sample.job.results = scratch.path("results").display().to_string();
    sample.job_file = scratch.file(name, sample.job.to_string())?;
    Ok(sample)
}

fn own_grants(settings: &Settings) -> io::Result<Sample> {
    let data = settings.data.canonicalize()?;
    let job_file = data.join(JOB);
    let job = Job::read(&fs::read_to_string(&job_file)?)
        .map_err(|line| invalid(format!("{}: {line}", job_file.display())))?;
    Ok(Sample {
        book: data.join("shore.book"),
        image: data.join("shore.img"),
        records: data.join(&job.records),
        job,
        job_file,
    })
}

fn invalid(message: String) -> io::Error {
    io::Error::new(io::ErrorKind::InvalidData, message)
}

impl Tools {
    /// The program and its words, but the runs, and the folder in which it finds its files.
    fn command<'a>(&'a self, machine: Machine, sample: &'a Sample) -> (Vec<OsString>, &'a Path) {
        let program = match machine {
            Machine::Ours => &self.ours,
            Machine::PlainC => &self.plain_c,
            Machine::Verified => &self.verified,
        };
        let mut words = vec![program.into()];
        if machine == Machine::Ours {
            words.push("run".into());
        }
        words.extend([&sample.book, &sample.image, &sample.job_file].map(OsString::from));
        if machine != Machine::Verified {
            words.push((&sample.records).into());
        }
        // The job names its records relative to the folder that it is in.
        (
            words,
            sample.book.parent().expect("the book is in a folder"),
        )
    }

    fn output(
        &self,
        under: &[&str],
        machine: Machine,
        sample: &Sample,
        runs: u64,
    ) -> io::Result<Output> {
        let (mut words, folder) = self.command(machine, sample);
        words.splice(0..0, under.iter().map(OsString::from));
        let output = Command::new(&words[0])
            .args(&words[1..])
            .arg(runs.to_string())
            .current_dir(folder)
            .output()?;
        if !output.status.success() {
            let error = String::from_utf8_lossy(&output.stderr);
            return Err(invalid(format!("{}: {error}", machine.name())));
        }
        Ok(output)
    }

    fn measure(&self, machine: Machine, sample: &Sample, runs: u64) -> io::Result<Vec<Measured>> {
        let output = self.output(&[], machine, sample, runs)?;
        let printed = String::from_utf8_lossy(&output.stdout);
        if machine == Machine::Verified {
            return measured_of_verified(&printed, &String::from_utf8_lossy(&output.stderr));
        }
        let line = printed.trim();
        let mut words = line.split(' ').map(str::parse);
        match (words.next(), words.next()) {
            (Some(Ok(steps)), Some(Ok(microseconds))) => Ok(vec![Measured {
                kind: String::new(),
                steps: steps as u64,
                microseconds,
            }]),
            _ => Err(invalid(format!("{} printed {line}", machine.name()))),
        }
    }

    /// One run of each of the first two: last registers and output bytes must be the same.
    fn check_outcomes(&self, sample: &Sample) -> io::Result<()> {
        let line = |machine| -> io::Result<String> {
            let output = self.output(&[], machine, sample, 1)?;
            Ok(String::from_utf8_lossy(&output.stdout).trim().to_string())
        };
        let (ours, in_c) = (line(Machine::Ours)?, line(Machine::PlainC)?);
        if outcome(&ours).is_some() && outcome(&ours) == outcome(&in_c) {
            Ok(())
        } else {
            Err(invalid(format!("{ours}, but in C {in_c}")))
        }
    }

    /// By valgrind: what a longer run takes more than a shorter one, so that what goes before
    /// the first step does not count.
    fn instructions_a_step(&self, machine: Machine, sample: &Sample) -> io::Result<f64> {
        let under = [
            "valgrind",
            "--tool=callgrind",
            "--callgrind-out-file=/dev/null",
        ];
        let mut counts = Vec::new();
        for runs in COUNTED_RUNS {
            let output = self.output(&under, machine, sample, runs)?;
            let printed = String::from_utf8_lossy(&output.stdout);
            let error = String::from_utf8_lossy(&output.stderr);
            let steps: u64 = match machine {
                Machine::Verified => numbers_by_kind(&printed).iter().map(|(_, n)| n).sum(),
                _ => numbers_by_kind(&printed).first().map_or(0, |(_, n)| *n),
            };
            let collected = error
                .lines()
                .find_map(|line| line.split_once("Collected :")?.1.trim().parse::<u64>().ok())
                .ok_or_else(|| invalid(format!("valgrind: {error}")))?;
            counts.push((collected as f64, steps as f64));
        }
        let [(short, few), (long, more)] = counts[..] else {
            unreachable!("two lengths are counted");
        };
        Ok((long - short) / (more - few))
    }
}

/// All that a line STEPS MICROSECONDS CHECKSUM REGISTERS says, but the time.
fn outcome(line: &str) -> Option<(&str, &str)> {
    let mut words = line.splitn(3, ' ');
    let steps = words.next()?;
    words.next()?;
    Some((steps, words.next()?))
}

/// `bench run BOOK IMAGE JOB RECORDS RUNS`: prints STEPS MICROSECONDS CHECKSUM REGISTERS, as
/// plain.c does.
pub fn run_job(files: [&Path; 4], runs: u64) -> io::Result<()> {
    let [book, image, job_file, records] = files;
    let refused = |path: &Path, what: String| invalid(format!("{}: {what}", path.display()));
    let job = Job::read(&fs::read_to_string(job_file)?).map_err(|line| refused(job_file, line))?;
    let read = Book::read(&fs::read(book)?);
    let book = read.map_err(|refusal| refused(book, refusal.to_string()))?;
    let store = Owned::from_image(&fs::read(image)?)
        .ok_or_else(|| refused(image, "another size".into()))?;
    let records_read = fs::read(records)?;
    let record = records_read
        .get(..job.input.length())
        .ok_or_else(|| refused(records, "no record".into()))?;

    let mut hall = Hall::new(store, &book);
    let bay = prepare(&mut hall, &job, record)
        .map_err(|refusal| refused(job_file, refusal.to_string()))?;
    let begin = Instant::now();
    let steps = run_turns(&mut hall, &bay, &job, runs);
    let microseconds = begin.elapsed().as_secs_f64() * 1e6;

    let output = job.output;
    let refusal = |refusal| invalid(format!("{refusal}"));
    let bytes = hall
        .copy(&bay, output.address, output.length())
        .map_err(refusal)?;
    let (registers, _) = hall.look(&bay).map_err(refusal)?;
    let checksum = bytes.iter().fold(0, |sum: u64, &byte| {
        sum.wrapping_mul(31).wrapping_add(byte.into())
    });
    println!("{steps} {microseconds:.0} {checksum} {registers}");
    Ok(())
}

fn prepare(
    hall: &mut Hall<Owned>,
    job: &Job,
    record: &[u8],
) -> Result<Sealed, crate::hall::Refusal> {
    let bay = hall.open(job.bay)?;
    for &grant in &job.grants {
        hall.grant(&bay, grant)?;
    }
    hall.load(&bay, job.input.address, record)?;
    hall.seal(bay).map_err(|(refusal, _)| refusal)
}

fn run_turns(hall: &mut Hall<Owned>, bay: &Sealed, job: &Job, runs: u64) -> u64 {
    let mut steps = 0;
    for _ in 0..runs {
        hall.set(bay, job.registers).expect("the bay is sealed");
        for _ in 0..job.count {
            let turn = hall.turn(bay, job.budget).expect("the bay is sealed");
            steps += u64::from(turn.steps);
        }
    }
    steps
}

fn compile(executable: &Path) -> io::Result<()> {
    let status = Command::new("cc")
        .args(["-std=c99", "-O2", "-o"])
        .arg(executable)
        .arg(bench_folder().join("plain.c"))
        .status()?;
    if status.success() {
        Ok(())
    } else {
        Err(invalid("plain.c does not compile".into()))
    }
}

/// What `speed` prints for each kind of store: `KIND N steps` on standard
/// output, and `KIND: N us, ..` on standard error.
fn measured_of_verified(printed: &str, error: &str) -> io::Result<Vec<Measured>> {
    let times = numbers_by_kind(error);
    let measured: Vec<_> = numbers_by_kind(printed)
        .into_iter()
        .filter_map(|(kind, steps)| {
            let (_, microseconds) = times.iter().find(|(timed, _)| *timed == kind)?;
            let microseconds = *microseconds as f64;
            Some(Measured {
                kind,
                steps,
                microseconds,
            })
        })
        .collect();
    if measured.is_empty() || measured.len() != times.len() {
        return Err(invalid(format!("speed: {error}")));
    }
    Ok(measured)
}

/// For each line the words before its first number, and that number.
fn numbers_by_kind(text: &str) -> Vec<(String, u64)> {
    text.lines()
        .filter_map(|line| {
            let at = line.find(|c: char| c.is_ascii_digit())?;
            let (kind, rest) = line.split_at(at);
            let end = rest
                .find(|c: char| !c.is_ascii_digit())
                .unwrap_or(rest.len());
            Some((
                kind.trim_end_matches([' ', ':']).to_string(),
                rest[..end].parse().ok()?,
            ))
        })
        .collect()
}
