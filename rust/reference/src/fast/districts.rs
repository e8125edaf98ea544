//! Two districts joined, for speed: both files are checked and then copied in one
//! pass, the second's numbers moved up.

use super::roster::check;
use crate::limits::{ENTRY_FIELD, MAX_NODES, MAX_QUOTA_SUM, MAX_ROSTER_BYTES, WIDE_FIELD};

pub fn join(first: &[u8], second: &[u8], out: &mut [u8]) -> Result<usize, u8> {
    if out.len() < MAX_ROSTER_BYTES {
        return Err(15);
    }
    let districts = [District::read(first)?, District::read(second)?];
    match check_sums(&districts) {
        0 => Ok(copy(districts, out)),
        refusal => Err(refusal),
    }
}

fn check_sums([first, second]: &[District; 2]) -> u8 {
    let quotas = [0, 1].map(|side| [first.quotas[side], second.quotas[side]]);
    let many = |[first, second]: [&[u8]; 2]| first.len() + second.len() > MAX_NODES;
    let large = |both: [&[u8]; 2]| {
        let quotas = both.into_iter().flatten();
        quotas.map(|&quota| usize::from(quota)).sum::<usize>() > MAX_QUOTA_SUM
    };
    if quotas.into_iter().any(many) {
        2
    } else if quotas.into_iter().any(large) {
        3
    } else {
        0
    }
}

/// Copies two accepted rosters into one, and gives its length.
fn copy(mut districts: [District; 2], out: &mut [u8]) -> usize {
    let mut joined = Joined { out, end: 0 };
    for side in 0..2 {
        let [first, second] = [0, 1].map(|place| districts[place].quotas[side]);
        joined.put(&[(first.len() + second.len()) as u8]);
        joined.put(first);
        joined.put(second);
    }
    // a surveyor's list has one length, a stand's two
    for (side, lengths) in [(0, 1), (1, 2)] {
        let entries: u16 = districts.iter_mut().map(District::entries).sum();
        joined.put(&entries.to_le_bytes());
        let up = districts[0].quotas[1 - side].len() as u8;
        for (district, up) in districts.iter_mut().zip([0, up]) {
            for _ in 0..district.quotas[side].len() {
                let lengths = district.take(lengths);
                joined.put(lengths);
                let count: usize = lengths.iter().map(|&length| usize::from(length)).sum();
                joined.moved(district.take(ENTRY_FIELD * count), up);
            }
        }
    }
    joined.end
}

/// An accepted file: the quotas of its two sides, and what of it is still to be
/// copied.
struct District<'a> {
    quotas: [&'a [u8]; 2],
    rest: &'a [u8],
}

impl<'a> District<'a> {
    fn read(file: &'a [u8]) -> Result<Self, u8> {
        match check(file) {
            0 => {}
            refusal => return Err(refusal),
        }
        let mut rest = file;
        let quotas = [(); 2].map(|()| {
            let quotas;
            (quotas, rest) = rest[1..].split_at(usize::from(rest[0]));
            quotas
        });
        Ok(District { quotas, rest })
    }

    fn take(&mut self, count: usize) -> &'a [u8] {
        let (bytes, rest) = self.rest.split_at(count);
        self.rest = rest;
        bytes
    }

    /// The count of a section's entries.
    fn entries(&mut self) -> u16 {
        let count = self.take(WIDE_FIELD);
        u16::from_le_bytes([count[0], count[1]])
    }
}

/// The joined file, and how far it has come.
struct Joined<'a> {
    out: &'a mut [u8],
    end: usize,
}

impl Joined<'_> {
    fn room(&mut self, count: usize) -> &mut [u8] {
        let start = self.end;
        self.end += count;
        &mut self.out[start..self.end]
    }

    fn put(&mut self, bytes: &[u8]) {
        self.room(bytes.len()).copy_from_slice(bytes);
    }

    fn moved(&mut self, entries: &[u8], up: u8) {
        let room = self.room(entries.len()).chunks_exact_mut(ENTRY_FIELD);
        for (field, moved) in entries.chunks_exact(ENTRY_FIELD).zip(room) {
            moved.copy_from_slice(&[field[0] + up, field[1]]);
        }
    }
}
