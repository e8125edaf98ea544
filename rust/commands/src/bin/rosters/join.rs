//! Two districts joined, by the proved call.

use std::path::Path;

use planner::{Refusal, ROSTER_BYTES};

use crate::problem::{Problem, What};
use crate::roster;

/// Joins the rosters of two files into a new one, and tells of it.
pub fn join(files: [&Path; 2], target: &Path) -> Result<String, Problem> {
    let [first, second] = files;
    let rosters = [roster::read(first)?, roster::read(second)?];
    let mut out = [0; ROSTER_BYTES];
    let joined = planner::join_districts(&rosters[0], &rosters[1], &mut out);
    let length = joined.map_err(|refusal| refused(files, &rosters, refusal))?;
    roster::put(target, &out[..length])
}

/// The first file that is refused by itself has the refusal; if none is, it is that
/// of their sums.
fn refused(files: [&Path; 2], rosters: &[Vec<u8>; 2], refusal: Refusal) -> Problem {
    let mut each = files.iter().zip(rosters);
    let what = What::Refused(refusal);
    match each.find(|(_, roster)| planner::read_roster(roster).is_err()) {
        Some((file, _)) => Problem::of(file, what),
        None => Problem::of_both(files, what),
    }
}
