//! Why a file is not turned, in plain words.

use std::ffi::OsString;
use std::fmt;
use std::io;

use planner::Refusal;

use commands::files::NotPut;

pub enum Problem {
    Refused(Refusal),
    /// No roster's name begins the plan's.
    NoRoster,
    /// The roster of this name, which the plan is judged against, is not turned.
    RosterNotTurned(OsString),
    NotRead(io::Error),
    /// Into the target folder.
    NotPut(NotPut),
}

impl fmt::Display for Problem {
    fn fmt(&self, formatter: &mut fmt::Formatter<'_>) -> fmt::Result {
        match self {
            Problem::Refused(refusal) => {
                write!(formatter, "refused by number {}: {refusal}", refusal.number)
            }
            Problem::NoRoster => formatter.write_str("there is no roster of its name beside it"),
            Problem::RosterNotTurned(roster) => {
                write!(formatter, "its roster {} is not turned", roster.display())
            }
            Problem::NotRead(error) => write!(formatter, "it cannot be read: {error}"),
            Problem::NotPut(NotPut::NotWritten(error)) => {
                write!(formatter, "it cannot be written: {error}")
            }
            Problem::NotPut(NotPut::OtherThere) => formatter
                .write_str("the target has a file of this name with other bytes, which stays"),
        }
    }
}
