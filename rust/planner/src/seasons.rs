//! Roster files of the seasons before the shifts. They need no desk; plans of
//! that time are turned by [`crate::Desk::plan_to_new`] and
//! [`crate::Desk::plan_to_old`].

use crate::answers;
use crate::ffi;
use crate::refusal::Refusal;

/// Turns an old roster file into a new one, with shift 1 throughout: writes it to
/// the front of `out`, which needs [`crate::ROSTER_BYTES`], and gives its length.
/// On a refusal no byte changes.
pub fn roster_to_new(file: &[u8], out: &mut [u8]) -> Result<usize, Refusal> {
    // SAFETY: slices, each with its own length; those that are written overlap none, as `&mut`.
    let outcome =
        unsafe { ffi::crew_roster_to_new(file.as_ptr(), file.len(), out.as_mut_ptr(), out.len()) };
    answers::length(&outcome)
}

/// Turns a roster file that has only shift 1 back to the old bytes: writes them
/// to the front of `out`, which needs [`crate::ROSTER_BYTES`] too, and gives their
/// number. On a refusal no byte changes.
pub fn roster_to_old(file: &[u8], out: &mut [u8]) -> Result<usize, Refusal> {
    // SAFETY: slices, each with its own length; those that are written overlap none, as `&mut`.
    let outcome =
        unsafe { ffi::crew_roster_to_old(file.as_ptr(), file.len(), out.as_mut_ptr(), out.len()) };
    answers::length(&outcome)
}
