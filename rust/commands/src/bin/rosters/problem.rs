//! Why nothing was written, in plain words.

use std::fmt;
use std::io;
use std::path::Path;

use commands::files::NotPut;
use planner::Refusal;

/// The file that shows it, or the files, and what it is.
pub struct Problem {
    about: String,
    what: What,
}

pub enum What {
    Refused(Refusal),
    /// The text form says what is wrong with a text.
    Text(String),
    /// Of a route; no byte could hold it as a stand's number.
    NoStand(String),
    NotRead(io::Error),
    NotPut(NotPut),
}

impl Problem {
    pub fn of(file: &Path, what: What) -> Problem {
        Problem {
            about: file.display().to_string(),
            what,
        }
    }

    /// Two files that are accepted, each by itself.
    pub fn of_both([first, second]: [&Path; 2], what: What) -> Problem {
        let about = format!("{} and {} together", first.display(), second.display());
        Problem { about, what }
    }

    /// The route that a file's roster was to be stored by.
    pub fn of_route(file: &Path, what: What) -> Problem {
        let about = format!("the route for {}", file.display());
        Problem { about, what }
    }
}

impl fmt::Display for Problem {
    fn fmt(&self, formatter: &mut fmt::Formatter<'_>) -> fmt::Result {
        write!(formatter, "{}: ", self.about)?;
        match &self.what {
            What::Refused(refusal) => {
                write!(formatter, "refused by number {}: {refusal}", refusal.number)
            }
            What::Text(words) => formatter.write_str(words),
            What::NoStand(word) => write!(formatter, "'{word}' is no number of a stand"),
            What::NotRead(error) => write!(formatter, "it cannot be read: {error}"),
            What::NotPut(NotPut::NotWritten(error)) => {
                write!(formatter, "it cannot be written: {error}")
            }
            What::NotPut(NotPut::OtherThere) => {
                formatter.write_str("it is there with other bytes, and stays")
            }
        }
    }
}
