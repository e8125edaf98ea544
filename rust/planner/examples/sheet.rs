//! A sheet for the foreman: a plan is held, and told day by day. Its busiest node
//! has three entries, so three days are enough.

use std::error::Error;
use std::io::{self, Write};

use planner::{Desk, Entry};

/// Two surveyors and three stands. Surveyor 1 ranks stand 3 in two shifts.
#[rustfmt::skip]
const ROSTER: [u8; 39] = [
    2, 3, 2, // surveyor 1 measures three times, surveyor 2 twice
    3, 1, 1, 3, // and stand 3 is measured three times
    5, 0, // what each surveyor ranks
    3, 2, 1, 3, 1, 3, 3,
    2, 1, 1, 3, 1,
    5, 0, // and each stand
    1, 0, 2, 1,
    1, 0, 1, 1,
    3, 0, 1, 1, 2, 1, 1, 3,
];

/// All of these pairs: surveyor, stand and shift.
#[rustfmt::skip]
const PLAN: [u8; 16] = [
    5,
    1, 2, 1,
    1, 3, 1,
    1, 3, 3,
    2, 1, 1,
    2, 3, 1,
];

/// Tells the sheet.
pub fn tell(out: &mut impl Write) -> Result<(), Box<dyn Error>> {
    let mut desk = Desk::open();
    desk.load_roster(&ROSTER)?;
    desk.load_plan(&PLAN)?;
    for (day, entries) in (1..).zip(&desk.sheet()?.days) {
        writeln!(out, "day {day}")?;
        for entry in entries {
            writeln!(out, "  {}", told(entry))?;
        }
    }
    Ok(())
}

fn told(entry: &Entry) -> String {
    let Entry {
        surveyor,
        stand,
        shift,
    } = entry;
    format!("surveyor {surveyor} at stand {stand}, shift {shift}")
}

fn main() -> Result<(), Box<dyn Error>> {
    tell(&mut io::stdout())
}
