//! What every call does with a buffer that it is lent.

use crate::refusal::Refusal;

/// Refuses a buffer below its size.
pub fn enough(length: usize, size: usize) -> Result<(), Refusal> {
    if length < size {
        Err(Refusal::BufferTooSmall)
    } else {
        Ok(())
    }
}

/// Writes to the front of a buffer and tells the length.
pub fn put(out: &mut [u8], bytes: &[u8]) -> usize {
    out[..bytes.len()].copy_from_slice(bytes);
    bytes.len()
}
