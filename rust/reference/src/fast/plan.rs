//! Plan files for speed.

use super::roster::{slot, Instance};
use crate::limits::{MAX_NODES, MAX_PLAN_PAIRS, MAX_SHIFT, OLD_PAIR_FIELD, OLD_SHIFT, PAIR_FIELD};

/// The pairs of a plan, ascending, as places in the instance.
#[derive(Clone, Copy, Debug)]
pub struct Chosen {
    pub count: usize,
    pub pairs: [u16; MAX_PLAN_PAIRS],
}

impl Chosen {
    pub fn as_slice(&self) -> &[u16] {
        &self.pairs[..self.count]
    }
}

/// Reads a plan, or gives the number of its refusal.
pub fn read(instance: &Instance, file: &[u8]) -> Result<Chosen, u8> {
    read_fields(instance, file, |numbers| numbers)
}

/// Reads an old plan.
pub fn read_old(instance: &Instance, file: &[u8]) -> Result<Chosen, u8> {
    let field = |[surveyor, stand]: [u8; OLD_PAIR_FIELD]| [surveyor, stand, OLD_SHIFT];
    read_fields(instance, file, field)
}

/// Reads a plan whose pairs have so many bytes each; `numbers` gives a pair's
/// numbers with its shift.
#[inline]
fn read_fields<const WIDTH: usize>(
    instance: &Instance,
    file: &[u8],
    numbers: impl Fn([u8; WIDTH]) -> [u8; PAIR_FIELD],
) -> Result<Chosen, u8> {
    let count = usize::from(*file.first().ok_or(1)?);
    if count > MAX_PLAN_PAIRS {
        return Err(2);
    }
    let mut chosen = Chosen {
        count,
        pairs: [0; MAX_PLAN_PAIRS],
    };
    let mut at_surveyor = [0u8; MAX_NODES];
    let mut at_stand = [0u8; MAX_NODES];
    let mut next = 0;
    for (place, slot) in chosen.pairs[..count].iter_mut().enumerate() {
        let rest = file.get(1 + WIDTH * place..).ok_or(1)?;
        let pair = find(instance, numbers(*rest.first_chunk().ok_or(1)?)).ok_or(10)?;
        if pair < next {
            return Err(11);
        }
        let surveyor = usize::from(instance.surveyor[usize::from(pair)]);
        let stand = usize::from(instance.stand[usize::from(pair)]);
        at_surveyor[surveyor] += 1;
        at_stand[stand] += 1;
        if at_surveyor[surveyor] > instance.quota_s[surveyor]
            || at_stand[stand] > instance.quota_t[stand]
        {
            return Err(12);
        }
        *slot = pair;
        next = pair + 1;
    }
    if file.len() > 1 + WIDTH * count {
        return Err(9);
    }
    Ok(chosen)
}

/// The place of a pair, by the numbers of its two ends and its shift.
fn find(instance: &Instance, [surveyor, stand, shift]: [u8; PAIR_FIELD]) -> Option<u16> {
    if surveyor == 0 || usize::from(surveyor) > instance.surveyors {
        return None;
    }
    if stand == 0 || usize::from(stand) > instance.stands || shift == 0 || shift > MAX_SHIFT {
        return None;
    }
    let surveyor = usize::from(surveyor) - 1;
    let slot = slot(usize::from(stand) - 1, usize::from(shift) - 1);
    let listed = instance.listed[surveyor];
    if listed >> slot & 1 == 0 {
        return None;
    }
    let before = listed & ((1 << slot) - 1);
    Some(instance.first[surveyor] + before.count_ones() as u16)
}

/// Writes a plan's bytes at the front of `out` and gives their number.
pub fn write(instance: &Instance, chosen: &Chosen, out: &mut [u8]) -> usize {
    out[0] = chosen.count as u8;
    1 + write_pairs(instance, chosen.as_slice(), &mut out[1..])
}

/// Writes the bytes of some pairs at the front of `out` and gives their number.
pub fn write_pairs(instance: &Instance, pairs: &[u16], out: &mut [u8]) -> usize {
    for (bytes, &pair) in out.chunks_exact_mut(PAIR_FIELD).zip(pairs) {
        let (surveyor, stand, shift) = instance.numbers(pair);
        bytes.copy_from_slice(&[surveyor, stand, shift]);
    }
    PAIR_FIELD * pairs.len()
}

/// Writes a plan's bytes as an old file, or gives 19 where it has another shift.
pub fn write_old(instance: &Instance, chosen: &Chosen, out: &mut [u8]) -> Result<usize, u8> {
    let shift = |&pair: &u16| instance.shift[usize::from(pair)];
    if chosen
        .as_slice()
        .iter()
        .any(|pair| shift(pair) != OLD_SHIFT)
    {
        return Err(19);
    }
    out[0] = chosen.count as u8;
    let fields = out[1..].chunks_exact_mut(OLD_PAIR_FIELD);
    for (bytes, &pair) in fields.zip(chosen.as_slice()) {
        let (surveyor, stand, _) = instance.numbers(pair);
        bytes.copy_from_slice(&[surveyor, stand]);
    }
    Ok(1 + OLD_PAIR_FIELD * chosen.count)
}
