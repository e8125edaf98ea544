//! Early in the season: two crews want one stand, and it is not yet settled whom the
//! stand will rank first. Which plan is safe whatever comes?

use std::error::Error;
use std::io::{self, Write};

use planner::{Desk, RANK_BYTES};

/// Two surveyors and one stand, which ranks surveyor 1 first so far.
const ROSTER: [u8; 21] = [
    2, 1, 1, 1, 1, 2, 0, 1, 1, 1, 1, 1, 1, 2, 0, 2, 0, 1, 1, 2, 1,
];

/// The stand is measured by surveyor 1, or by surveyor 2.
const BY_ONE: [u8; 4] = [1, 1, 1, 1];
const BY_TWO: [u8; 4] = [1, 2, 1, 1];

/// What is told of the stand's two ranks, of surveyor 1 and of surveyor 2, each from a
/// low to a high number; the surveyors have the stand first.
const STORIES: [(&str, [u8; 4]); 4] = [
    ("settled: surveyor 1 first, surveyor 2 second", [1, 1, 2, 2]),
    ("surveyor 1 first or second, surveyor 2 third", [1, 2, 3, 3]),
    ("both first or second", [1, 2, 1, 2]),
    ("nothing is known", [1, 32, 1, 32]),
];

/// Tells the least votes.
pub fn tell(out: &mut impl Write) -> Result<(), Box<dyn Error>> {
    let mut desk = Desk::open();
    desk.load_roster(&ROSTER)?;
    for (words, stand) in STORIES {
        let mut ranges = vec![1, 1, 1, 1];
        ranges.extend(stand);
        writeln!(out, "{words}")?;
        for (name, first, second) in [
            ("surveyor 1's plan", BY_ONE, BY_TWO),
            ("surveyor 2's plan", BY_TWO, BY_ONE),
        ] {
            let mut ranks = [0; RANK_BYTES];
            let least = desk.least(&first, &second, &ranges, &mut ranks)?;
            let [one, two] = [ranks[2], ranks[3]];
            let vote = least.vote;
            writeln!(
                out,
                "  {name}: at least {vote}, as with ranks {one} and {two}"
            )?;
        }
    }
    Ok(())
}

fn main() -> Result<(), Box<dyn Error>> {
    tell(&mut io::stdout())
}
