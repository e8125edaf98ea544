//! The tables of docs/BENCHMARKS.md: the times of a row, the least of several runs, and
//! the ratios of the first column to each other one.

use std::fmt::{self, Display, Formatter};

/// A table of the document, by the name of its place there.
pub struct Table {
    pub name: &'static str,
    /// What a row is, and what its columns measure, the proved call first.
    row: &'static str,
    columns: &'static [&'static str],
    rows: Vec<Row>,
    /// What is told below it.
    notes: Vec<String>,
}

/// A row's times, in microseconds.
pub struct Row {
    pub name: String,
    pub times: Vec<f64>,
}

/// The least ratio that is told as above 1.00.
const SLOWER: f64 = 1.005;

pub const PROVED: &str = "proved, us";
pub const REFERENCE: &str = "reference, us";

impl Table {
    /// Proved calls against the reference.
    pub fn new(name: &'static str) -> Table {
        Table::of(name, "call", &[PROVED, REFERENCE])
    }

    pub fn of(name: &'static str, row: &'static str, columns: &'static [&'static str]) -> Table {
        Table {
            name,
            row,
            columns,
            rows: Vec::new(),
            notes: Vec::new(),
        }
    }

    pub fn put(&mut self, name: impl Into<String>, times: Vec<f64>) {
        assert_eq!(times.len(), self.columns.len());
        self.rows.push(Row {
            name: name.into(),
            times,
        });
    }

    pub fn note(&mut self, words: String) {
        self.notes.push(words);
    }

    /// The rows, with their ratio to the reference, that are slower than it.
    pub fn above(&self) -> impl Iterator<Item = (&str, f64)> {
        let reference = self.columns.iter().position(|&column| column == REFERENCE);
        let ratios = reference.into_iter().flat_map(|place| {
            let ratio = move |row: &Row| row.times[0] / row.times[place];
            self.rows
                .iter()
                .map(move |row| (row.name.as_str(), ratio(row)))
        });
        ratios.filter(|&(_, ratio)| ratio >= SLOWER)
    }

    pub fn rows(&self) -> &[Row] {
        &self.rows
    }

    /// Takes the least times of another run in, whose rows are the same.
    pub fn merge(&mut self, other: Table) {
        assert_eq!(self.rows.len(), other.rows.len(), "{}", self.name);
        for (row, other) in self.rows.iter_mut().zip(other.rows) {
            assert_eq!(row.name, other.name);
            for (time, other) in row.times.iter_mut().zip(other.times) {
                *time = time.min(other);
            }
        }
        self.notes = other.notes;
    }
}

impl Display for Table {
    fn fmt(&self, out: &mut Formatter<'_>) -> fmt::Result {
        if !self.rows.is_empty() {
            self.lines(out)?;
        }
        for note in &self.notes {
            write!(out, "\n{note}\n")?;
        }
        Ok(())
    }
}

impl Table {
    fn lines(&self, out: &mut Formatter<'_>) -> fmt::Result {
        let others = &self.columns[1..];
        write!(out, "| {} | {} |", self.row, self.columns[0])?;
        for column in others {
            write!(out, " {column} | ratio |")?;
        }
        writeln!(out)?;
        writeln!(out, "|---|---|{}", "---|---|".repeat(others.len()))?;
        for Row { name, times } in &self.rows {
            write!(out, "| {name} | {:.2} |", times[0])?;
            for time in &times[1..] {
                write!(out, " {time:.2} | {:.2} |", times[0] / time)?;
            }
            writeln!(out)?;
        }
        Ok(())
    }
}

#[cfg(test)]
mod tests {
    use super::*;

    fn table(times: [f64; 2]) -> Table {
        let mut table = Table::new("a");
        table.put("one call", times.to_vec());
        table.note("told below".into());
        table
    }

    #[test]
    fn the_least_of_two_runs() {
        let mut both = table([3.0, 4.0]);
        both.merge(table([2.0, 8.0]));
        assert_eq!(
            both.to_string(),
            "| call | proved, us | reference, us | ratio |\n|---|---|---|---|\n| one call | 2.00 | 4.00 | 0.50 |\n\ntold below\n"
        );
        assert_eq!(both.above().count(), 0);
        assert_eq!(
            table([3.0, 2.0]).above().collect::<Vec<_>>(),
            [("one call", 1.5)]
        );
    }
}
