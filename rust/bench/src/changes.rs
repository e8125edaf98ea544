//! Joining and leaving on rosters of the longest kind, each against a find on the
//! changed roster, which both calls answer for: 31 surveyors and a joiner with a
//! full list, and one of 32 who leaves. Aim: at most 1.2 times a find on
//! the changed roster.

use std::hint::black_box;

use planner::Desk;
use reference::random::{list_file, Random};
use reference::roster::{self, Node, Roster, Side};

use crate::finder;
use crate::lent::{loaded, Buffers};
use crate::longest::longest;
use crate::measure::Effort;
use crate::stack;
use crate::table::{Table, PROVED};

const LAST: u8 = 32;
/// Neither the first of the lists nor the last.
const LEAVER: u8 = 16;

/// The roster without its last surveyor, whose number is free then; and that
/// surveyor's quota and list, the list as its file.
fn without_last(roster: &Roster) -> (Vec<u8>, u8, Vec<u8>) {
    let (last, others) = roster
        .nodes(Side::Surveyors)
        .split_last()
        .expect("32 surveyors");
    let mut stands = roster.nodes(Side::Stands).to_vec();
    for Node { list, .. } in &mut stands {
        list.strict.retain(|entry| entry.number != LAST);
        list.tied.retain(|entry| entry.number != LAST);
    }
    let shorter = Roster::new(others.to_vec(), stands).expect("both sides list the same pairs");
    let list = list_file(&last.list.strict);
    (roster::write(&shorter), last.quota, list)
}

/// A joiner's quota and list, or a leaver's number.
enum Change {
    Join(u8, Vec<u8>),
    Leave(u8),
}

/// A change on a desk that holds a roster, and what it is in words.
struct Case {
    name: String,
    desk: Desk,
    change: Change,
}

impl Case {
    /// The desk after the change.
    fn changed(&self, buffers: &mut Buffers) -> Desk {
        let mut desk = black_box(&self.desk).clone();
        match &self.change {
            Change::Join(quota, list) => buffers.join(&mut desk, *quota, list),
            Change::Leave(number) => buffers.leave(&mut desk, *number),
        }
        desk
    }
}

/// A join and a leave on each shape.
fn cases() -> Vec<Case> {
    let mut cases = Vec::new();
    for (shape, roster) in longest(&mut Random::new(10)) {
        let (shorter, quota, list) = without_last(&roster);
        cases.push(Case {
            name: format!("join 31 surveyors, the longest roster then, {shape}"),
            desk: loaded(&shorter),
            change: Change::Join(quota, list),
        });
        cases.push(Case {
            name: format!("leave the longest roster, {shape}"),
            desk: loaded(&roster::write(&roster)),
            change: Change::Leave(LEAVER),
        });
    }
    cases
}

/// The call, the proved find on the changed roster, and the reference's find on it.
fn times(effort: Effort, case: &Case) -> Vec<f64> {
    let [mut changing, mut finding, mut theirs] = [(); 3].map(|()| Buffers::new());
    let changed = case.changed(&mut changing);
    let bytes = changed.roster[..changed.roster_len].to_vec();
    effort.in_turn(
        1,
        &mut [
            &mut || {
                black_box(case.changed(&mut changing));
            },
            &mut || finding.find(black_box(&changed)),
            &mut || finder::find(black_box(&bytes), &mut theirs),
        ],
    )
}

pub fn table(effort: Effort) -> Table {
    const COLUMNS: &[&str] = &[
        PROVED,
        "find on the changed roster, us",
        "reference's find on it, us",
    ];
    let mut table = Table::of("changes", "call", COLUMNS);
    let cases = cases();
    for case in &cases {
        table.put(case.name.clone(), times(effort, case));
    }
    let depths = cases.into_iter().map(|case| {
        stack::depth(move || {
            case.changed(&mut Buffers::new());
        })
    });
    let deepest = depths.max().unwrap_or(0).div_ceil(1024);
    table.note(format!("A call takes {deepest} KiB of stack."));
    table
}
