//! `bench compare` and `bench speed`: see README.md.

use bench::compare;
use bench::program::{bench_folder, Programs};
use bench::speed;
use std::path::{Path, PathBuf};
use std::process::ExitCode;

const USAGE: &str = "usage:
  bench compare [SEED] [STEPS] [HISTORIES] [BOOKS] [--threads N] [--bin FOLDER]
  bench speed [RUNS] [--bin FOLDER] [--data FOLDER]
  bench run BOOK IMAGE JOB RECORDS RUNS";

/// What stands on the command line.
struct Arguments {
    command: String,
    numbers: Vec<u64>,
    threads: usize,
    programs: Programs,
    data: PathBuf,
}

impl Arguments {
    fn read() -> Option<Arguments> {
        let mut words = std::env::args().skip(1);
        let command = words.next()?;
        let mut numbers = Vec::new();
        let mut threads = 4;
        let mut folder = std::env::var_os("LUMKRAV_BIN").map(PathBuf::from);
        let mut data = bench_folder().join("../crates/recover/data");
        while let Some(word) = words.next() {
            match word.as_str() {
                "--threads" => threads = words.next()?.parse().ok()?,
                "--bin" => folder = Some(words.next()?.into()),
                "--data" => data = words.next()?.into(),
                number => numbers.push(number.parse().ok()?),
            }
        }
        Some(Arguments {
            command,
            numbers,
            threads,
            programs: Programs::new(folder),
            data,
        })
    }

    fn number(&self, position: usize, default: u64) -> u64 {
        self.numbers.get(position).copied().unwrap_or(default)
    }
}

/// `bench run`, if that is asked for.
fn run_job() -> Option<std::io::Result<()>> {
    let words: Vec<String> = std::env::args().skip(1).collect();
    match &words[..] {
        [run, book, image, job, records, runs] if run == "run" => {
            let files = [book, image, job, records].map(Path::new);
            Some(speed::run_job(files, runs.parse().ok()?))
        }
        _ => None,
    }
}

fn main() -> ExitCode {
    if let Some(result) = run_job() {
        return match result {
            Ok(()) => ExitCode::SUCCESS,
            Err(error) => {
                eprintln!("bench: {error}");
                ExitCode::FAILURE
            }
        };
    }
    let Some(arguments) = Arguments::read() else {
        eprintln!("{USAGE}");
        return ExitCode::FAILURE;
    };
    let result = match arguments.command.as_str() {
        "compare" => compare::run(&compare::Settings {
            seed: arguments.number(0, 1),
            steps: arguments.number(1, 1_000_000) as usize,
            histories: arguments.number(2, 10_000) as usize,
            books: arguments.number(3, 100_000) as usize,
            threads: arguments.threads.clamp(1, 4),
            programs: arguments.programs,
        }),
        "speed" => speed::run(&speed::Settings {
            runs: arguments.number(0, 1_000),
            programs: arguments.programs,
            data: arguments.data,
        }),
        _ => {
            eprintln!("{USAGE}");
            return ExitCode::FAILURE;
        }
    };
    match result {
        Ok(true) => ExitCode::SUCCESS,
        Ok(false) => ExitCode::FAILURE,
        Err(error) => {
            eprintln!("bench: {error}");
            ExitCode::FAILURE
        }
    }
}
