//! Why there is no sheet, in plain words.

use std::fmt;
use std::io;
use std::path::{Path, PathBuf};

use planner::Refusal;

/// A file, and what is wrong with it.
pub struct Problem {
    path: PathBuf,
    why: Why,
}

pub enum Why {
    NotRead(io::Error),
    Refused(Refusal),
}

impl Problem {
    pub fn of(path: &Path, why: Why) -> Problem {
        let path = path.to_owned();
        Problem { path, why }
    }
}

impl fmt::Display for Problem {
    fn fmt(&self, formatter: &mut fmt::Formatter<'_>) -> fmt::Result {
        let path = self.path.display();
        match &self.why {
            Why::NotRead(error) => write!(formatter, "{path}: it cannot be read: {error}"),
            Why::Refused(refusal) => {
                let number = refusal.number;
                write!(formatter, "{path}: refused by number {number}: {refusal}")
            }
        }
    }
}
