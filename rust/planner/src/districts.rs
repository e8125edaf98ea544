//! Two districts on one tablet: their roster files joined into one. They need no
//! desk.

use crate::answers;
use crate::ffi;
use crate::refusal::Refusal;

/// Joins two roster files of districts with nobody in common: the second's
/// surveyors and stands come after the first's, their numbers moved up. Writes the
/// joined roster to the front of `out`, which needs [`crate::ROSTER_BYTES`], and
/// gives its length. It has a strongly popular plan exactly when both have one,
/// which is then the two side by side.
///
/// The first file's refusals come before the second's, and these before those of the
/// sums: more than 32 surveyors or stands together are 2, and after that quotas of
/// one side above 64 together 3. On a refusal no byte changes.
///
/// ```
/// // one surveyor and one stand, in shift 1 and in shift 2
/// let north = [1, 1, 1, 1, 1, 0, 1, 1, 1, 1, 0, 1, 0, 1, 1];
/// let south = [1, 1, 1, 1, 1, 0, 1, 1, 2, 1, 0, 1, 0, 1, 2];
/// let mut out = [0; planner::ROSTER_BYTES];
/// let length = planner::join_districts(&north, &south, &mut out)?;
/// let both = [2, 1, 1, 2, 1, 1, 2, 0, 1, 1, 1, 1, 2, 2, 2, 0, 1, 0, 1, 1, 1, 0, 2, 2];
/// assert_eq!(out[..length], both);
/// # Ok::<(), planner::Refusal>(())
/// ```
pub fn join_districts(first: &[u8], second: &[u8], out: &mut [u8]) -> Result<usize, Refusal> {
    // SAFETY: slices, each with its own length; those that are written overlap none, as `&mut`.
    let outcome = unsafe {
        ffi::crew_join_districts(
            first.as_ptr(),
            first.len(),
            second.as_ptr(),
            second.len(),
            out.as_mut_ptr(),
            out.len(),
        )
    };
    answers::length(&outcome)
}
