//! How the cost of a call grows with the roster: reading, a strong verdict and a find
//! over rosters of 4 to 32 nodes a side, of quota 2 and with the longest lists that three
//! shifts allow.

use std::hint::black_box;

use reference::fast;
use reference::random::{self, Random, Shape};
use reference::roster::{self, Roster};

use crate::finder;
use crate::lent::{loaded, Buffers};
use crate::measure::Effort;
use crate::plot::{plot, Line};
use crate::table::Table;
use crate::verdict::Case;

const NODES: [u8; 5] = [4, 8, 16, 24, 32];
const CALLS: [&str; 3] = ["read", "verdict, strong", "find"];
/// A find's time depends on the roster most: it is the mean of so many.
const ROSTERS: usize = 8;

pub fn table(effort: Effort) -> Table {
    let mut table = Table::new("growth");
    let cases = NODES.map(Sized::new);
    for (call, name) in CALLS.iter().enumerate() {
        for (case, nodes) in cases.iter().zip(NODES) {
            let pairs = case.agreed.pairs().len();
            let times = match call {
                0 => case.reading(effort),
                1 => case.verdict(effort),
                _ => case.finding(effort),
            };
            table.put(
                format!("{name}, {nodes} nodes a side, {pairs} pairs"),
                times,
            );
        }
    }
    table.note("![The same times as lines over the number of nodes](growth.svg)".into());
    table
}

/// The rosters of one size.
struct Sized {
    agreed: Roster,
    strong: Case,
    random: Vec<Vec<u8>>,
}

impl Sized {
    fn new(nodes: u8) -> Sized {
        let mut random = Random::new(17);
        let (agreed, plan) = random::agreed_of(&mut random, usize::from(nodes), 0);
        let shape = Shape {
            counts: [nodes..=nodes, nodes..=nodes],
            ..random::longest_shape(50, 20)
        };
        let rosters = (0..ROSTERS).map(|_| random::roster(&mut random, &shape));
        Sized {
            strong: Case::new(format!("{nodes} nodes"), &agreed, &plan),
            random: rosters.map(|roster| roster::write(&roster)).collect(),
            agreed,
        }
    }

    fn reading(&self, effort: Effort) -> Vec<f64> {
        let file = &self.strong.roster;
        effort.both(
            200,
            || black_box(planner::read_roster(black_box(file))).expect("accepted"),
            || assert_eq!(black_box(fast::roster::check(black_box(file))), 0),
        )
    }

    fn verdict(&self, effort: Effort) -> Vec<f64> {
        let (verdict, times) = self.strong.times(effort);
        assert_eq!(verdict, "strong", "{}", self.strong.name);
        times
    }

    fn finding(&self, effort: Effort) -> Vec<f64> {
        let desks: Vec<planner::Desk> = self.random.iter().map(|file| loaded(file)).collect();
        let (mut ours, mut theirs) = (Buffers::new(), Buffers::new());
        let times = effort.both(
            1,
            || {
                for desk in &desks {
                    ours.find(black_box(desk));
                }
            },
            || {
                for file in &self.random {
                    finder::find(black_box(file), &mut theirs);
                }
            },
        );
        times.iter().map(|time| time / ROSTERS as f64).collect()
    }
}

/// The table as a plot, a file of its own.
pub fn picture(table: &Table) -> String {
    let lines = CALLS.iter().zip(table.rows().chunks(NODES.len()));
    let lines: Vec<Line> = lines
        .map(|(name, rows)| Line {
            name,
            proved: rows.iter().map(|row| row.times[0]).collect(),
            reference: rows.iter().map(|row| row.times[1]).collect(),
        })
        .collect();
    plot(&NODES.map(f64::from), &lines)
}
