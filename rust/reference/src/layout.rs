//! The two layouts of files: old ones, from the seasons before the shifts, and
//! new ones. They differ in the fields of entries and pairs, and in how long a
//! list may be.

use crate::limits::{MAX_LIST, OLD_ENTRY_FIELD, OLD_PAIR_FIELD, OLD_SHIFT};
use crate::reader::Reader;
use crate::refusal::Refusal;
use crate::roster::{Entry, Pair};

/// How a file states its entries and pairs.
#[derive(Clone, Copy, Debug, PartialEq, Eq)]
pub enum Layout {
    /// By their numbers alone.
    Old,
    /// By their numbers and a shift.
    New,
}

impl Layout {
    /// The most entries of one list, where the other side has so many nodes.
    pub fn longest_list(self, others: usize) -> usize {
        match self {
            Layout::Old => others,
            Layout::New => MAX_LIST,
        }
    }

    /// The next field of a list.
    pub fn entry(self, reader: &mut Reader) -> Result<Entry, Refusal> {
        let [number, shift] = match self {
            Layout::Old => {
                let [number] = reader.field::<OLD_ENTRY_FIELD>()?;
                [number, OLD_SHIFT]
            }
            Layout::New => reader.field()?,
        };
        Ok(Entry { number, shift })
    }

    /// The next field of a plan.
    pub fn pair(self, reader: &mut Reader) -> Result<Pair, Refusal> {
        let [surveyor, stand, shift] = match self {
            Layout::Old => {
                let [surveyor, stand] = reader.field::<OLD_PAIR_FIELD>()?;
                [surveyor, stand, OLD_SHIFT]
            }
            Layout::New => reader.field()?,
        };
        Ok(Pair {
            surveyor,
            stand,
            shift,
        })
    }

    /// Appends the field of an entry or a pair, given with its shift at the end.
    pub fn put<const WIDTH: usize>(self, file: &mut Vec<u8>, field: [u8; WIDTH]) {
        match self {
            Layout::Old => file.extend(&field[..WIDTH - 1]),
            Layout::New => file.extend(field),
        }
    }
}
