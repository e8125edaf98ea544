//! Old season files (W-205): an old file becomes a new one with shift 1
//! throughout, and a new file with only shift 1 goes back to the old bytes. A
//! roster is turned as a file by itself, a plan is judged against its roster.
//! Either way a buffer needs the size of the longest new file.

use crate::layout::Layout;
use crate::lent::{enough, put};
use crate::limits::{MAX_PLAN_BYTES, MAX_ROSTER_BYTES, OLD_SHIFT};
use crate::plan;
use crate::refusal::Refusal;
use crate::roster::{self, Pair, Roster};

/// Writes the new file of an old roster and tells its length.
pub fn roster_to_new(file: &[u8], out: &mut [u8]) -> Result<usize, Refusal> {
    enough(out.len(), MAX_ROSTER_BYTES)?;
    let roster = roster::read_by(Layout::Old, file)?;
    Ok(put(out, &roster::write(&roster)))
}

/// Writes the old file of a new roster and tells its length.
pub fn roster_to_old(file: &[u8], out: &mut [u8]) -> Result<usize, Refusal> {
    enough(out.len(), MAX_ROSTER_BYTES)?;
    let roster = roster::read(file)?;
    only_old_shift(roster.pairs().iter().copied())?;
    Ok(put(out, &roster::write_by(Layout::Old, &roster)))
}

/// Writes the new file of an old plan of this roster and tells its length.
pub fn plan_to_new(roster: &Roster, file: &[u8], out: &mut [u8]) -> Result<usize, Refusal> {
    enough(out.len(), MAX_PLAN_BYTES)?;
    let plan = plan::read_by(Layout::Old, roster, file)?;
    Ok(put(out, &plan::write(roster, &plan)))
}

/// Writes the old file of a new plan of this roster and tells its length. The
/// roster may have other shifts, the plan may not.
pub fn plan_to_old(roster: &Roster, file: &[u8], out: &mut [u8]) -> Result<usize, Refusal> {
    enough(out.len(), MAX_PLAN_BYTES)?;
    let plan = plan::read(roster, file)?;
    only_old_shift(plan.pairs(roster))?;
    Ok(put(out, &plan::write_by(Layout::Old, roster, &plan)))
}

/// Refuses pairs of which some have another shift than old files state.
fn only_old_shift(mut pairs: impl Iterator<Item = Pair>) -> Result<(), Refusal> {
    if pairs.all(|pair| pair.shift == OLD_SHIFT) {
        Ok(())
    } else {
        Err(Refusal::AnotherShift)
    }
}
