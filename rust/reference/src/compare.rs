//! The comparison of two plan files, which hands back the winner's pair bytes
//! as a part of its own file.

use std::ops::Range;

use crate::limits::NARROW_FIELD;
use crate::plan::{self, Plan};
use crate::refusal::Refusal;
use crate::roster::Roster;
use crate::votes::plan_vote;

/// The two files of a comparison.
#[derive(Clone, Copy, Debug, PartialEq, Eq)]
pub enum File {
    First,
    Second,
}

/// A range of bytes of one of the two files.
#[derive(Clone, Debug, PartialEq, Eq)]
pub struct Part {
    pub file: File,
    pub range: Range<usize>,
}

impl Part {
    /// The empty part, taken from the first file.
    pub(crate) fn empty() -> Part {
        Part {
            file: File::First,
            range: 0..0,
        }
    }

    /// All pair bytes of a plan file: everything behind its count.
    fn pairs(file: File, bytes: &[u8]) -> Part {
        Part {
            file,
            range: NARROW_FIELD..bytes.len(),
        }
    }
}

/// The votes of the two plans against each other.
#[derive(Clone, Copy, Debug, PartialEq, Eq)]
pub struct Votes {
    pub first_against_second: i16,
    pub second_against_first: i16,
}

/// Which of two plans beats the other.
#[derive(Clone, Copy, Debug, PartialEq, Eq)]
pub enum Winner {
    First,
    Second,
    Both,
    Neither,
}

impl Votes {
    /// The votes of two plans of a roster.
    pub fn of(roster: &Roster, first: &Plan, second: &Plan) -> Votes {
        Votes {
            first_against_second: plan_vote(roster, first, second),
            second_against_first: plan_vote(roster, second, first),
        }
    }

    /// A plan beats another when the other's vote against it is below zero, so
    /// that each may beat the other.
    pub fn winner(self) -> Winner {
        let first_beats = self.second_against_first < 0;
        let second_beats = self.first_against_second < 0;
        match (first_beats, second_beats) {
            (true, false) => Winner::First,
            (false, true) => Winner::Second,
            (true, true) => Winner::Both,
            (false, false) => Winner::Neither,
        }
    }
}

/// The votes or the refusal, and in both cases a part.
#[derive(Clone, Debug, PartialEq, Eq)]
pub struct Comparison {
    pub outcome: Result<Votes, Refusal>,
    pub part: Part,
}

/// Compares two plan files. Where both plans win, or neither, the part is empty.
pub fn compare(roster: &Roster, first: &[u8], second: &[u8]) -> Comparison {
    let outcome = votes(roster, first, second);
    let part = match outcome.map(Votes::winner) {
        Ok(Winner::First) => Part::pairs(File::First, first),
        Ok(Winner::Second) => Part::pairs(File::Second, second),
        Ok(Winner::Both | Winner::Neither) | Err(_) => Part::empty(),
    };
    Comparison { outcome, part }
}

/// Both votes.
fn votes(roster: &Roster, first: &[u8], second: &[u8]) -> Result<Votes, Refusal> {
    let [first, second] = plans(roster, first, second)?;
    Ok(Votes::of(roster, &first, &second))
}

/// Both plans; the first file is checked in full before the second.
pub(crate) fn plans(roster: &Roster, first: &[u8], second: &[u8]) -> Result<[Plan; 2], Refusal> {
    let first = plan::read(roster, first)?;
    let second = plan::read(roster, second)?;
    Ok([first, second])
}
