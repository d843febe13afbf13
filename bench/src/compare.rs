//! Compares this machine with the verified programs `cases` and `calls`.

mod books;
mod coverage;
mod damage;
mod histories;
mod part;
mod readings;
mod steps;
mod values;
mod watched;

use crate::program::{Programs, Scratch};
use part::Part;
use std::io;

pub struct Settings {
    pub programs: Programs,
    pub seed: u64,
    pub steps: usize,
    pub histories: usize,
    pub books: usize,
    pub threads: usize,
}

/// What the parts need to run programs.
struct Context<'a> {
    settings: &'a Settings,
    scratch: Scratch,
}

/// Compares everything and prints a report. True if nothing differs and all is covered.
pub fn run(settings: &Settings) -> io::Result<bool> {
    settings.programs.check(&["cases", "calls"])?;
    let context = Context {
        settings,
        scratch: Scratch::new()?,
    };
    let mut all_well = true;
    for (title, compare) in [
        (
            "steps and turns",
            steps::compare as fn(&Context) -> io::Result<Part>,
        ),
        ("histories", histories::compare),
        ("damaged books", damage::compare),
        ("readings and words put together", readings::compare),
        (
            "unknown names and formats put together",
            readings::compare_unknown,
        ),
    ] {
        let part = compare(&context)?;
        all_well &= part.report(title);
    }
    println!(
        "{}",
        if all_well {
            "Nothing differs, everything expected was covered."
        } else {
            "NOT well: see above."
        }
    );
    Ok(all_well)
}
