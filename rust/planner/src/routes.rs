//! Rosters stored in walking order: a file is a route and then a roster, whose
//! stands are numbered by the route. They need no desk.

use crate::answers;
use crate::ffi;
use crate::refusal::Refusal;

/// Stores a roster by a route: the file is a count byte, at most 32, as many stand
/// numbers, which name each stand once, and then the roster. Writes the route and
/// behind it the roster with its stands renumbered and reordered, the first named
/// becoming 1 and so on, to the front of `out`, which needs [`crate::STORED_BYTES`],
/// and gives the length, which is the file's. The strongly popular plan of that
/// roster is the renumbered plan, and where there is none there is none.
///
/// A route cut short is 1 and a count above 32 is 2, before the roster is read; a
/// route that is not each stand exactly once is 23, after the roster's own refusals.
/// On a refusal no byte changes.
///
/// ```
/// // along stand 2, then 3, then 1; quotas 4, 5 and 6, and a surveyor who ranks 3, 1
/// let file = [
///     3, 2, 3, 1, 1, 2, 3, 4, 5, 6, 2, 0, 2, 3, 1, 1, 1, 2, 0, 1, 0, 1, 1, 0, 0, 1, 0, 1, 1,
/// ];
/// let mut out = [0; planner::STORED_BYTES];
/// let length = planner::store(&file, &mut out)?;
/// let stored = [
///     3, 2, 3, 1, 1, 2, 3, 5, 6, 4, 2, 0, 2, 2, 1, 3, 1, 2, 0, 0, 0, 1, 0, 1, 1, 1, 0, 1, 1,
/// ];
/// assert_eq!(out[..length], stored);
/// let length = planner::unstore(&stored, &mut out)?;
/// assert_eq!(out[..length], file);
/// # Ok::<(), planner::Refusal>(())
/// ```
pub fn store(file: &[u8], out: &mut [u8]) -> Result<usize, Refusal> {
    // SAFETY: slices, each with its own length; those that are written overlap none, as `&mut`.
    let outcome =
        unsafe { ffi::crew_store(file.as_ptr(), file.len(), out.as_mut_ptr(), out.len()) };
    answers::length(&outcome)
}

/// Makes of a stored file what it was, the route in front, and writes it to the front
/// of `out`, which needs [`crate::STORED_BYTES`] too. It takes what [`store`] takes,
/// and each of the two undoes the other. On a refusal no byte changes.
pub fn unstore(file: &[u8], out: &mut [u8]) -> Result<usize, Refusal> {
    // SAFETY: slices, each with its own length; those that are written overlap none, as `&mut`.
    let outcome =
        unsafe { ffi::crew_unstore(file.as_ptr(), file.len(), out.as_mut_ptr(), out.len()) };
    answers::length(&outcome)
}
