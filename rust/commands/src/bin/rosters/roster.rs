//! A roster in a file: as text, or as its bytes. The file's name tells which.

use std::fs;
use std::path::Path;

use commands::files::{self, Put};
use planner::ROSTER_BYTES;

use crate::problem::{Problem, What};

fn is_text(path: &Path) -> bool {
    path.extension().is_some_and(|end| end == "txt")
}

/// The bytes of the roster in a file. Whether they are accepted is not looked at.
pub fn read(path: &Path) -> Result<Vec<u8>, Problem> {
    let problem = |what| Problem::of(path, what);
    if is_text(path) {
        let text = fs::read(path).map_err(|error| problem(What::NotRead(error)))?;
        rostertext::pack(&text).map_err(|words| problem(What::Text(words)))
    } else {
        files::read(path, ROSTER_BYTES).map_err(|error| problem(What::NotRead(error)))
    }
}

/// Puts an accepted roster into a new file, and tells of it.
pub fn put(path: &Path, roster: &[u8]) -> Result<String, Problem> {
    let problem = |what| Problem::of(path, what);
    let file = if is_text(path) {
        rostertext::unpack(roster).map_err(|words| problem(What::Text(words)))?
    } else {
        roster.to_vec()
    };
    put_bytes(path, &file)
}

/// Puts bytes into a new file, and tells of it.
pub fn put_bytes(path: &Path, bytes: &[u8]) -> Result<String, Problem> {
    let put = files::put(path, bytes);
    let words = match put.map_err(|why| Problem::of(path, What::NotPut(why)))? {
        Put::Written => "written",
        Put::There => "is there already",
    };
    Ok(format!("{} {words}, {} bytes", path.display(), bytes.len()))
}
