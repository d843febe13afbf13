//! The result of one part of the comparison, and how its units are shared among threads.

use super::coverage::Coverage;
use crate::program::bench_folder;
use std::fs;
use std::io;
use std::path::PathBuf;
use std::sync::atomic::{AtomicUsize, Ordering};
use std::sync::Mutex;

/// How many differences are shown in full.
const SHOWN: usize = 5;

#[derive(Default)]
pub struct Part {
    compared: u64,
    differing: u64,
    shown: Vec<String>,
    pub coverage: Coverage,
    expected: Coverage,
}

impl Part {
    /// Compares two answers; `case` tells what was asked, if they differ.
    pub fn compare(&mut self, ours: &str, theirs: Option<&str>, case: impl FnOnce() -> String) {
        self.compare_whole(Some(ours) == theirs, || {
            let theirs = theirs.unwrap_or("(nothing)");
            format!("{}\n  ours:   {ours}\n  theirs: {theirs}", case())
        });
    }

    /// Counts a comparison; `difference` tells what differs.
    pub fn compare_whole(&mut self, alike: bool, difference: impl FnOnce() -> String) {
        self.compared += 1;
        if alike {
            return;
        }
        self.differing += 1;
        if self.shown.len() < SHOWN {
            self.shown.push(difference());
        }
    }

    /// Notes that a program did not end as it should.
    pub fn failed(&mut self, what: String) {
        self.differing += 1;
        self.shown.push(what);
    }

    pub fn expect(&mut self, section: &'static str, row: impl ToString, column: impl ToString) {
        self.expected.note(section, row, column);
    }

    fn merge(&mut self, other: Part) {
        self.compared += other.compared;
        self.differing += other.differing;
        self.shown.extend(other.shown);
        self.coverage.merge(other.coverage);
        self.expected.merge(other.expected);
    }

    /// Prints the part. True if nothing differs and all that is expected was covered.
    pub fn report(mut self, title: &str) -> bool {
        println!("== {title}");
        println!("{} compared, {} differ", self.compared, self.differing);
        self.shown.truncate(SHOWN);
        for shown in &self.shown {
            println!("DIFFERS {shown}");
        }
        let missing = self.coverage.missing(&self.expected);
        print!("{}", self.coverage);
        println!(
            "{} expected, {} of them not covered",
            self.expected.len(),
            missing.len()
        );
        for key in &missing {
            println!("NOT COVERED {key}");
        }
        println!();
        self.differing == 0 && missing.is_empty()
    }
}

/// Does `count` units of work, no more than `threads` at once. The result does
/// not depend on the number of threads.
pub fn in_parallel(
    count: usize,
    threads: usize,
    unit: impl Fn(usize) -> io::Result<Part> + Sync,
) -> io::Result<Part> {
    let next = AtomicUsize::new(0);
    let results: Mutex<Vec<Option<io::Result<Part>>>> =
        Mutex::new((0..count).map(|_| None).collect());
    std::thread::scope(|scope| {
        for _ in 0..threads.clamp(1, count.max(1)) {
            scope.spawn(|| loop {
                let index = next.fetch_add(1, Ordering::Relaxed);
                if index >= count {
                    break;
                }
                let result = unit(index);
                results.lock().expect("no thread panicked")[index] = Some(result);
            });
        }
    });
    let mut all = Part::default();
    for result in results.into_inner().expect("no thread panicked") {
        all.merge(result.expect("every unit was done")?);
    }
    Ok(all)
}

/// Keeps the files of a differing case, and gives their folder.
pub fn keep(name: &str, files: &[(&str, &[u8])]) -> PathBuf {
    let folder = bench_folder().join("target/differences").join(name);
    let written = fs::create_dir_all(&folder).and_then(|()| {
        files
            .iter()
            .try_for_each(|(name, content)| fs::write(folder.join(name), content))
    });
    if let Err(error) = written {
        eprintln!("{}: {error}", folder.display());
    }
    folder
}
