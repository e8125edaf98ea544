//! Fields taken one by one, left to right, from the front of a file.

use crate::limits::{NARROW_FIELD, WIDE_FIELD};
use crate::refusal::Refusal;

/// The part of a file that is still to be read.
pub struct Reader<'a> {
    rest: &'a [u8],
}

impl<'a> Reader<'a> {
    pub fn new(file: &'a [u8]) -> Self {
        Reader { rest: file }
    }

    /// The next field of `WIDTH` bytes. A field with too few bytes left, none
    /// included, is refused as a whole.
    pub fn field<const WIDTH: usize>(&mut self) -> Result<[u8; WIDTH], Refusal> {
        let (field, rest) = self
            .rest
            .split_first_chunk::<WIDTH>()
            .ok_or(Refusal::EndsInsideField)?;
        self.rest = rest;
        Ok(*field)
    }

    /// The next one-byte number.
    pub fn narrow(&mut self) -> Result<u8, Refusal> {
        let [byte] = self.field::<NARROW_FIELD>()?;
        Ok(byte)
    }

    /// The next one-byte count or length, at most `limit`.
    pub fn narrow_count(&mut self, limit: usize) -> Result<usize, Refusal> {
        let count = usize::from(self.narrow()?);
        within(count, limit)
    }

    /// The next two-byte count, low byte first, at most `limit`.
    pub fn wide_count(&mut self, limit: usize) -> Result<usize, Refusal> {
        let count = usize::from(u16::from_le_bytes(self.field::<WIDE_FIELD>()?));
        within(count, limit)
    }

    /// Refuses bytes after the end.
    pub fn end(&self) -> Result<(), Refusal> {
        if self.rest.is_empty() {
            Ok(())
        } else {
            Err(Refusal::BytesAfterEnd)
        }
    }
}

/// A count or length that does not pass its limit.
pub fn within(count: usize, limit: usize) -> Result<usize, Refusal> {
    if count <= limit {
        Ok(count)
    } else {
        Err(Refusal::CountAboveLimit)
    }
}
