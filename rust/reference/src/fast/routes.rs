//! Rosters in walking order, for speed: the file is checked, then the surveyors' part
//! is copied with other numbers and the stands' lists by the places where they begin.

use super::roster::check;
use crate::limits::{ENTRY_FIELD, MAX_NODES, MAX_STORED_BYTES, WIDE_FIELD};

pub fn store(file: &[u8], out: &mut [u8]) -> Result<usize, u8> {
    turned::<false>(file, out)
}

pub fn unstore(file: &[u8], out: &mut [u8]) -> Result<usize, u8> {
    turned::<true>(file, out)
}

/// Stands by their numbers less one: for each new one the old one, and for each old
/// one the new one.
struct Numbers {
    old: [u8; MAX_NODES],
    new: [u8; MAX_NODES],
}

fn turned<const BACK: bool>(file: &[u8], out: &mut [u8]) -> Result<usize, u8> {
    if out.len() < MAX_STORED_BYTES {
        return Err(15);
    }
    let (&count, behind) = file.split_first().ok_or(1)?;
    let count = usize::from(count);
    if count > MAX_NODES {
        return Err(2);
    }
    let (route, roster) = behind.split_at_checked(count).ok_or(1)?;
    match check(roster) {
        0 => {}
        refusal => return Err(refusal),
    }
    let surveyors = usize::from(roster[0]);
    let stands = usize::from(roster[1 + surveyors]);
    let mut numbers = numbers(route, stands).ok_or(23)?;
    if BACK {
        std::mem::swap(&mut numbers.old, &mut numbers.new);
    }
    let out = &mut out[..file.len()];
    out[..=count].copy_from_slice(&file[..=count]);
    copy(roster, &mut out[1 + count..], [surveyors, stands], &numbers);
    Ok(file.len())
}

/// What a route that names each stand once makes of their numbers.
fn numbers(route: &[u8], stands: usize) -> Option<Numbers> {
    let mut numbers = Numbers {
        old: [0; MAX_NODES],
        new: [0; MAX_NODES],
    };
    let mut named = 0u64;
    for (place, &number) in route.iter().enumerate() {
        let stand = usize::from(number).wrapping_sub(1);
        if stand >= stands || named >> stand & 1 == 1 {
            return None;
        }
        named |= 1 << stand;
        numbers.old[place] = stand as u8;
        numbers.new[stand] = place as u8;
    }
    (route.len() == stands).then_some(numbers)
}

/// Copies an accepted roster with other numbers.
fn copy(file: &[u8], out: &mut [u8], [surveyors, stands]: [usize; 2], numbers: &Numbers) {
    let old = &numbers.old[..stands];
    let mut at = 2 + surveyors;
    out[..at].copy_from_slice(&file[..at]);
    for (quota, &old) in out[at..at + stands].iter_mut().zip(old) {
        *quota = file[at + usize::from(old)];
    }
    at += stands;
    out[at..at + WIDE_FIELD].copy_from_slice(&file[at..at + WIDE_FIELD]);
    at += WIDE_FIELD;
    for _ in 0..surveyors {
        out[at] = file[at];
        let entries = at + 1..at + 1 + ENTRY_FIELD * usize::from(file[at]);
        at = entries.end;
        let renumbered = out[entries.clone()].chunks_exact_mut(ENTRY_FIELD);
        for (field, renumbered) in file[entries].chunks_exact(ENTRY_FIELD).zip(renumbered) {
            let number = numbers.new[usize::from(field[0] - 1)] + 1;
            renumbered.copy_from_slice(&[number, field[1]]);
        }
    }
    out[at..at + WIDE_FIELD].copy_from_slice(&file[at..at + WIDE_FIELD]);
    at += WIDE_FIELD;
    reorder(&file[at..], &mut out[at..], old);
}

/// Copies the stands' lists: in each place the one of the old number.
fn reorder(file: &[u8], out: &mut [u8], old: &[u8]) {
    let mut starts = [0; MAX_NODES + 1];
    for stand in 0..old.len() {
        let start = starts[stand];
        let entries = usize::from(file[start]) + usize::from(file[start + 1]);
        starts[stand + 1] = start + 2 + ENTRY_FIELD * entries;
    }
    let mut end = 0;
    for &old in old {
        let stand = usize::from(old);
        let list = &file[starts[stand]..starts[stand + 1]];
        out[end..end + list.len()].copy_from_slice(list);
        end += list.len();
    }
}
