//! Old season files for speed: a file is checked and then copied in one pass.

use super::plan;
use super::roster::{check_old, only_old_shift, Instance};
use crate::limits::{
    ENTRY_FIELD, MAX_PLAN_BYTES, MAX_ROSTER_BYTES, NARROW_FIELD, OLD_ENTRY_FIELD, OLD_SHIFT,
    WIDE_FIELD,
};

pub fn roster_to_new(file: &[u8], out: &mut [u8]) -> Result<usize, u8> {
    if out.len() < MAX_ROSTER_BYTES {
        return Err(15);
    }
    match check_old(file) {
        0 => Ok(copy::<OLD_ENTRY_FIELD, ENTRY_FIELD>(file, out)),
        refusal => Err(refusal),
    }
}

pub fn roster_to_old(file: &[u8], out: &mut [u8]) -> Result<usize, u8> {
    if out.len() < MAX_ROSTER_BYTES {
        return Err(15);
    }
    if only_old_shift(file)? {
        Ok(copy::<ENTRY_FIELD, OLD_ENTRY_FIELD>(file, out))
    } else {
        Err(19)
    }
}

pub fn plan_to_new(instance: &Instance, file: &[u8], out: &mut [u8]) -> Result<usize, u8> {
    if out.len() < MAX_PLAN_BYTES {
        return Err(15);
    }
    let chosen = plan::read_old(instance, file)?;
    Ok(plan::write(instance, &chosen, out))
}

pub fn plan_to_old(instance: &Instance, file: &[u8], out: &mut [u8]) -> Result<usize, u8> {
    if out.len() < MAX_PLAN_BYTES {
        return Err(15);
    }
    let chosen = plan::read(instance, file)?;
    plan::write_old(instance, &chosen, out)
}

/// Copies an accepted roster with entries of one width to one with entries of
/// the other, and gives its length.
fn copy<const FROM: usize, const TO: usize>(file: &[u8], out: &mut [u8]) -> usize {
    let surveyors = usize::from(file[0]);
    let stands = usize::from(file[NARROW_FIELD + surveyors]);
    let mut copier = Copier { file, out, end: 0 };
    copier.alike(2 * NARROW_FIELD + surveyors + stands);
    // a surveyor's list has one length, a stand's two
    for (nodes, lengths) in [(surveyors, 1), (stands, 2)] {
        copier.alike(WIDE_FIELD);
        for _ in 0..nodes {
            let lengths = copier.alike(lengths * NARROW_FIELD);
            let entries = lengths.iter().map(|&length| usize::from(length)).sum();
            copier.entries::<FROM, TO>(entries);
        }
    }
    copier.end
}

/// What is left of a file, and how far its copy has come.
struct Copier<'a> {
    file: &'a [u8],
    out: &'a mut [u8],
    end: usize,
}

impl<'a> Copier<'a> {
    /// Copies bytes that are the same in both files, and gives them.
    fn alike(&mut self, count: usize) -> &'a [u8] {
        let (bytes, rest) = self.file.split_at(count);
        self.out[self.end..self.end + count].copy_from_slice(bytes);
        self.file = rest;
        self.end += count;
        bytes
    }

    fn entries<const FROM: usize, const TO: usize>(&mut self, count: usize) {
        let (fields, rest) = self.file.split_at(FROM * count);
        let copies = &mut self.out[self.end..self.end + TO * count];
        for (field, copy) in fields.chunks_exact(FROM).zip(copies.chunks_exact_mut(TO)) {
            let numbers = [field[0], OLD_SHIFT];
            copy.copy_from_slice(&numbers[..TO]);
        }
        self.file = rest;
        self.end += TO * count;
    }
}
