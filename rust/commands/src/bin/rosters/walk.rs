//! Rosters stored in walking order and taken back, by the proved calls. The route is
//! given and told apart from the roster; in a stored file it stands before it.

use std::ffi::OsString;
use std::path::Path;

use commands::files;
use planner::{Refusal, ROSTER_BYTES, STORED_BYTES};

use crate::problem::{Problem, What};
use crate::roster;

/// Bytes of the longest route, its count among them: what a stored file has before its
/// roster.
const LONGEST_ROUTE: usize = STORED_BYTES - ROSTER_BYTES;

/// Stores the roster of a file along a route, given in words, into a new file, and
/// tells of it.
pub fn store(file: &Path, target: &Path, words: &[OsString]) -> Result<String, Problem> {
    let route = numbers(words).map_err(|what| Problem::of_route(file, what))?;
    let roster = roster::read(file)?;
    let mut out = [0; STORED_BYTES];
    let stored = planner::store(&[&route[..], &roster].concat(), &mut out);
    let length = stored.map_err(|refusal| refused(file, &route, &roster, refusal))?;
    roster::put_bytes(target, &out[..length])
}

/// Puts the roster of a stored file, as it was, into a new file, and tells of it and
/// of the route.
pub fn unstore(file: &Path, target: &Path) -> Result<String, Problem> {
    let problem = |what| Problem::of(file, what);
    let stored = files::read(file, STORED_BYTES).map_err(|error| problem(What::NotRead(error)))?;
    let mut out = [0; STORED_BYTES];
    let unstored = planner::unstore(&stored, &mut out);
    let length = unstored.map_err(|refusal| problem(What::Refused(refusal)))?;
    let (route, roster) = out[1..length].split_at(usize::from(out[0]));
    let told = roster::put(target, roster)?;
    Ok(format!("{told}; the route is {}", words(route)))
}

/// The words for a route's numbers.
fn words(route: &[u8]) -> String {
    if route.is_empty() {
        return "empty".to_owned();
    }
    let numbers: Vec<String> = route.iter().map(u8::to_string).collect();
    numbers.join(" ")
}

/// The bytes of a route: its count and its numbers.
fn numbers(words: &[OsString]) -> Result<Vec<u8>, What> {
    let mut route = vec![0];
    for word in words {
        let word = word.to_string_lossy();
        for number in word.split_whitespace() {
            let parsed = number.parse().map_err(|_| What::NoStand(number.to_owned()));
            route.push(parsed?);
        }
    }
    // a count that no byte holds is too high like those above 32
    route[0] = u8::try_from(route.len() - 1).unwrap_or(u8::MAX);
    Ok(route)
}

/// The roster has the refusal if it is refused by itself, unless the route's count is
/// too high, which comes first.
fn refused(file: &Path, route: &[u8], roster: &[u8], refusal: Refusal) -> Problem {
    let what = What::Refused(refusal);
    if route.len() <= LONGEST_ROUTE && planner::read_roster(roster).is_err() {
        Problem::of(file, what)
    } else {
        Problem::of_route(file, what)
    }
}
