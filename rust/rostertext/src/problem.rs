//! What can be wrong with a text roster, or with a text of ranges, in plain words.

use std::fmt;

use reference::limits::{MAX_LIST, MAX_NODES, MAX_QUOTA, MAX_QUOTA_SUM, MAX_RANK, MAX_SHIFT};
use reference::roster::Side;

use crate::line::{Listed, PLAIN_SHIFT};

/// What is wrong, and the line that shows it, counted from 1.
#[derive(Clone, Debug, PartialEq, Eq)]
pub struct Problem {
    pub line: usize,
    pub what: What,
}

/// All that can be wrong. A side is that of the line's node, numbers are as
/// they were written.
#[derive(Clone, Debug, PartialEq, Eq)]
pub enum What {
    /// The line begins with another word than `surveyor` or `stand`.
    UnknownStart(String),
    /// Something else stands where a number belongs, or nothing.
    NoNumber {
        place: &'static str,
        found: String,
    },
    /// The number is not the next one of its side.
    WrongNumber {
        side: Side,
        found: usize,
        next: usize,
    },
    TooManyNodes(Side),
    /// Neither a quota nor a colon follows the number, or no colon the quota.
    NoColon(String),
    QuotaTooLarge(usize),
    QuotasTooLarge(Side),
    TieOfSurveyor,
    TieNotClosed,
    TieEmpty,
    EntryBehindTie(String),
    ShiftOutOfRange(usize),
    /// The list has so many entries.
    ListTooLong(usize),
    EntryOutOfRange {
        side: Side,
        entry: usize,
        count: usize,
    },
    EntryTwice {
        side: Side,
        entry: Listed,
    },
    OneSideOnly {
        side: Side,
        number: usize,
        entry: Listed,
    },
    /// An entry of a line of ranges has none behind it.
    NoEquals(String),
    /// The two numbers are no range of ranks.
    NoRange {
        low: usize,
        high: usize,
    },
    /// The node's list does not have the entry, or there is no such node.
    NotListed {
        side: Side,
        number: usize,
        entry: Listed,
    },
}

/// The word for one node of a side.
pub(crate) fn word(side: Side) -> &'static str {
    match side {
        Side::Surveyors => "surveyor",
        Side::Stands => "stand",
    }
}

/// The words for a shift behind a node; the plain one is not told.
fn in_shift(shift: u8) -> String {
    if shift == PLAIN_SHIFT {
        String::new()
    } else {
        format!(" in shift {shift}")
    }
}

impl fmt::Display for Problem {
    fn fmt(&self, formatter: &mut fmt::Formatter<'_>) -> fmt::Result {
        write!(formatter, "line {}: {}", self.line, self.what)
    }
}

impl fmt::Display for What {
    fn fmt(&self, formatter: &mut fmt::Formatter<'_>) -> fmt::Result {
        match self {
            What::UnknownStart(found) => {
                write!(
                    formatter,
                    "a line starts with 'surveyor' or 'stand', not with '{found}'"
                )
            }
            What::NoNumber { place, found } if found.is_empty() => {
                write!(formatter, "a number is missing {place}")
            }
            What::NoNumber { place, found } => {
                write!(formatter, "'{found}' is no number, {place}")
            }
            What::WrongNumber { side, found, next } => {
                let word = word(*side);
                write!(
                    formatter,
                    "{word} {found} comes where {word} {next} is next"
                )
            }
            What::TooManyNodes(side) => {
                write!(
                    formatter,
                    "there are more than {MAX_NODES} {}s",
                    word(*side)
                )
            }
            What::NoColon(found) if found.is_empty() => {
                write!(formatter, "a colon is missing before the list")
            }
            What::NoColon(found) => {
                write!(
                    formatter,
                    "'{found}' stands where a quota or a colon belongs"
                )
            }
            What::QuotaTooLarge(quota) => {
                write!(formatter, "quota {quota} is above {MAX_QUOTA}")
            }
            What::QuotasTooLarge(side) => {
                let word = word(*side);
                write!(
                    formatter,
                    "with this one the {word}s' quotas sum to more than {MAX_QUOTA_SUM}"
                )
            }
            What::TieOfSurveyor => {
                write!(formatter, "a surveyor's list has no tie")
            }
            What::TieNotClosed => write!(formatter, "the tie's bracket is not closed"),
            What::TieEmpty => write!(formatter, "the tie is empty"),
            What::EntryBehindTie(found) => {
                write!(
                    formatter,
                    "'{found}' stands behind the tie, which comes last"
                )
            }
            What::ShiftOutOfRange(shift) => {
                write!(
                    formatter,
                    "shift {shift} is listed, but the shifts are numbered from 1 to {MAX_SHIFT}"
                )
            }
            What::ListTooLong(length) => {
                write!(
                    formatter,
                    "the list has {length} entries, more than {MAX_LIST}"
                )
            }
            What::EntryOutOfRange {
                side,
                entry,
                count: 0,
            } => {
                let other = word(side.other());
                write!(
                    formatter,
                    "{other} {entry} is listed, but the text has no {other}"
                )
            }
            What::EntryOutOfRange { side, entry, count } => {
                let other = word(side.other());
                write!(
                    formatter,
                    "{other} {entry} is listed, but the {other}s are numbered from 1 to {count}"
                )
            }
            What::EntryTwice { side, entry } => {
                let (other, Listed { number, shift }) = (word(side.other()), *entry);
                let shift = in_shift(shift);
                write!(
                    formatter,
                    "{other} {number}{shift} stands twice in the list"
                )
            }
            What::OneSideOnly {
                side,
                number,
                entry,
            } => {
                let (own, other) = (word(*side), word(side.other()));
                let (entry, shift) = (entry.number, in_shift(entry.shift));
                write!(
                    formatter,
                    "{own} {number} lists {other} {entry}{shift}, but {other} {entry} does not list {own} {number}{shift}"
                )
            }
            What::NoEquals(found) => {
                write!(
                    formatter,
                    "'{found}' has no range behind it, as in '{found}=2..4'"
                )
            }
            What::NoRange { low, high } => {
                write!(
                    formatter,
                    "{low} to {high} is no range: ranks go from 1 to {MAX_RANK}, the lower one first"
                )
            }
            What::NotListed {
                side,
                number,
                entry,
            } => {
                let (own, other) = (word(*side), word(side.other()));
                let (entry, shift) = (entry.number, in_shift(entry.shift));
                write!(
                    formatter,
                    "{own} {number} does not list {other} {entry}{shift} in the roster"
                )
            }
        }
    }
}

impl std::error::Error for Problem {}
