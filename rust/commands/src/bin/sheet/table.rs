//! A sheet as a table of plain text.

use std::ffi::OsStr;

use planner::{Desk, Entry, Sheet};

/// What the rows are.
#[derive(Clone, Copy)]
pub enum Rows {
    Surveyors,
    Stands,
}

impl Rows {
    pub fn named(word: &OsStr) -> Option<Rows> {
        match word.to_str()? {
            "surveyors" => Some(Rows::Surveyors),
            "stands" => Some(Rows::Stands),
            _ => None,
        }
    }

    /// How many the held roster has: its file begins with the surveyors' count and
    /// quotas, and the stands' count is behind them.
    pub fn count(self, desk: &Desk) -> u8 {
        let surveyors = desk.roster[0];
        match self {
            Rows::Surveyors => surveyors,
            Rows::Stands => desk.roster[1 + usize::from(surveyors)],
        }
    }

    fn heading(self) -> &'static str {
        match self {
            Rows::Surveyors => "surveyor",
            Rows::Stands => "stand",
        }
    }

    /// The entry's own node and the one that it is with.
    fn ends(self, entry: &Entry) -> (u8, u8) {
        match self {
            Rows::Surveyors => (entry.surveyor, entry.stand),
            Rows::Stands => (entry.stand, entry.surveyor),
        }
    }

    /// Whom a node is with on a day; shift 1 is not told.
    fn cell(self, node: u8, day: &[Entry]) -> String {
        let own = day.iter().find(|entry| self.ends(entry).0 == node);
        own.map_or("-".to_owned(), |entry| {
            let (_, other) = self.ends(entry);
            match entry.shift {
                1 => other.to_string(),
                shift => format!("{other}/{shift}"),
            }
        })
    }
}

/// A heading and a row for each of so many nodes, the cells in columns.
pub fn table(sheet: &Sheet, rows: Rows, count: u8) -> String {
    let days = (1..).zip(&sheet.days).map(|(day, _)| format!("day {day}"));
    let heading = std::iter::once(rows.heading().to_owned()).chain(days);
    let mut lines: Vec<Vec<String>> = vec![heading.collect()];
    for node in 1..=count {
        let cells = sheet.days.iter().map(|day| rows.cell(node, day));
        lines.push(std::iter::once(node.to_string()).chain(cells).collect());
    }
    let width = |cells: &[String]| cells.iter().map(String::len).max().unwrap_or(0);
    let first = width(&lines.iter().map(|line| line[0].clone()).collect::<Vec<_>>());
    let others = lines
        .iter()
        .map(|line| width(&line[1..]))
        .max()
        .unwrap_or(0);
    let mut text = String::new();
    for line in &lines {
        text.push_str(&format!("{:>first$}", line[0]));
        for cell in &line[1..] {
            text.push_str(&format!("  {cell:>others$}"));
        }
        text.push('\n');
    }
    text
}
