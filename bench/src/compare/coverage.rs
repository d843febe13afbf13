//! Counts of what was met.

use std::collections::BTreeMap;
use std::fmt;

type Row = BTreeMap<String, u64>;

/// Counts by section, row and column.
#[derive(Default)]
pub struct Coverage(BTreeMap<&'static str, BTreeMap<String, Row>>);

impl Coverage {
    pub fn note(&mut self, section: &'static str, row: impl ToString, column: impl ToString) {
        self.add(section, row.to_string(), column.to_string(), 1);
    }

    fn add(&mut self, section: &'static str, row: String, column: String, count: u64) {
        *self
            .0
            .entry(section)
            .or_default()
            .entry(row)
            .or_default()
            .entry(column)
            .or_default() += count;
    }

    fn items(&self) -> impl Iterator<Item = (&'static str, &String, &String, u64)> {
        self.0.iter().flat_map(|(section, rows)| {
            rows.iter().flat_map(move |(row, columns)| {
                columns
                    .iter()
                    .map(move |(column, count)| (*section, row, column, *count))
            })
        })
    }

    pub fn merge(&mut self, other: Coverage) {
        for (section, row, column, count) in other.items() {
            self.add(section, row.clone(), column.clone(), count);
        }
    }

    pub fn len(&self) -> usize {
        self.items().count()
    }

    fn count(&self, section: &str, row: &str, column: &str) -> u64 {
        let row = self.0.get(section).and_then(|rows| rows.get(row));
        row.and_then(|columns| columns.get(column))
            .copied()
            .unwrap_or(0)
    }

    /// What is expected and has count 0 here.
    pub fn missing(&self, expected: &Coverage) -> Vec<String> {
        expected
            .items()
            .filter(|(section, row, column, _)| self.count(section, row, column) == 0)
            .map(|(section, row, column, _)| format!("{section}: {row}: {column}"))
            .collect()
    }
}

impl fmt::Display for Coverage {
    fn fmt(&self, f: &mut fmt::Formatter) -> fmt::Result {
        for (section, rows) in &self.0 {
            writeln!(f, "-- {section}")?;
            for (row, columns) in rows {
                let columns: Vec<String> = columns
                    .iter()
                    .map(|(column, count)| format!("{column} {count}"))
                    .collect();
                writeln!(f, "{row}: {}", columns.join(", "))?;
            }
        }
        Ok(())
    }
}
