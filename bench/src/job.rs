//! Jobs (programs.md, "recover"), as far as measuring needs them.

use crate::grants::{Grant, Kind};
use crate::registers::Registers;
use std::fmt;
use std::str::FromStr;

#[derive(Clone, Debug, Default)]
pub struct Job {
    pub bay: u64,
    pub grants: Vec<Grant>,
    pub registers: Registers,
    pub input: Area,
    pub output: Area,
    pub count: u16,
    pub budget: u16,
    pub records: String,
    pub results: String,
}

/// Bytes that a record is put into, or a result is taken from.
#[derive(Clone, Copy, Debug, Default)]
pub struct Area {
    pub address: u16,
    pub halfwords: u16,
}

impl Area {
    pub fn length(&self) -> usize {
        2 * usize::from(self.halfwords)
    }
}

impl Job {
    /// Reads a job's text; the error is the first line that is not understood.
    pub fn read(text: &str) -> Result<Job, String> {
        let mut job = Job::default();
        for line in text.lines() {
            if !line.is_empty() && !line.starts_with('#') {
                job.take_line(line).ok_or_else(|| line.to_string())?;
            }
        }
        Ok(job)
    }

    fn take_line(&mut self, line: &str) -> Option<()> {
        let fields: Vec<&str> = line.split('\t').collect();
        match fields[..] {
            ["bay", bay] => self.bay = number(bay)?,
            ["grant", kind, first, last] => {
                let kind = match kind {
                    "read" => Kind::Read,
                    "write" => Kind::Write,
                    _ => return None,
                };
                self.grants
                    .push(Grant::new(kind, number(first)?, number(last)?));
            }
            ["registers", a, b, x, y, z, s, l] => {
                self.registers = Registers {
                    a: number::<u32>(a)? as i32,
                    b: number(b)?,
                    x: number::<u16>(x)? as i16,
                    y: number(y)?,
                    z: number(z)?,
                    s: number(s)?,
                    l: number(l)?,
                    ..Registers::default()
                }
            }
            ["input", address, halfwords] => self.input = area(address, halfwords)?,
            ["output", address, halfwords] => self.output = area(address, halfwords)?,
            ["turns", count, budget] => {
                self.count = number(count)?;
                self.budget = number(budget)?;
            }
            ["records", file] => self.records = file.into(),
            ["results", file] => self.results = file.into(),
            _ => return None,
        }
        Some(())
    }
}

fn number<T: FromStr>(text: &str) -> Option<T> {
    text.parse().ok()
}

fn area(address: &str, halfwords: &str) -> Option<Area> {
    Some(Area {
        address: number(address)?,
        halfwords: number(halfwords)?,
    })
}

impl fmt::Display for Job {
    fn fmt(&self, f: &mut fmt::Formatter) -> fmt::Result {
        writeln!(f, "bay\t{}", self.bay)?;
        for grant in &self.grants {
            writeln!(f, "grant\t{}\t{}\t{}", grant.kind, grant.first, grant.last)?;
        }
        let r = &self.registers;
        writeln!(
            f,
            "registers\t{}\t{}\t{}\t{}\t{}\t{}\t{}",
            r.a as u32, r.b, r.x as u16, r.y, r.z, r.s, r.l
        )?;
        for (name, area) in [("input", self.input), ("output", self.output)] {
            writeln!(f, "{name}\t{}\t{}", area.address, area.halfwords)?;
        }
        writeln!(f, "turns\t{}\t{}", self.count, self.budget)?;
        writeln!(f, "records\t{}", self.records)?;
        writeln!(f, "results\t{}", self.results)
    }
}

#[cfg(test)]
mod tests {
    use super::*;

    #[test]
    fn a_job_is_written_as_it_was_read() {
        let text = "bay\t1\ngrant\tread\t256\t511\ngrant\twrite\t4096\t4127\n\
            registers\t4294967295\t0\t65535\t8192\t12288\t1024\t4096\ninput\t8192\t1024\n\
            output\t12288\t1024\nturns\t32\t4096\nrecords\tcounts.rec\nresults\theights.out\n";
        assert_eq!(Job::read(text).unwrap().to_string(), text);
        assert!(Job::read("bay\tone\n").is_err());
    }
}
