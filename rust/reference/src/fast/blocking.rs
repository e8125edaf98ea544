//! The first blocking pair, for speed.

use super::plan::Chosen;
use super::roster::Instance;
use crate::limits::{MAX_ENTRIES, MAX_NODES};

/// The rank from which on a node gives up no place, for each node of a side:
/// that of its worst pair, or behind all ranks where a place is free.
fn limits(
    count: usize,
    quotas: &[u8; MAX_NODES],
    ends: &[u8],
    ranks: &[u8],
    chosen: &Chosen,
) -> [u8; MAX_NODES] {
    let mut taken = [0u8; MAX_NODES];
    let mut worst = [0u8; MAX_NODES];
    for &pair in chosen.as_slice() {
        let node = usize::from(ends[usize::from(pair)]);
        taken[node] += 1;
        worst[node] = worst[node].max(ranks[usize::from(pair)]);
    }
    for node in 0..count {
        if taken[node] < quotas[node] {
            worst[node] = u8::MAX;
        }
    }
    worst
}

/// The pair that is shown, by the numbers of its surveyor and its stand, and its
/// shift. Pairs ascend by surveyor, so the search ends with the first surveyor
/// that has one.
#[expect(
    clippy::needless_range_loop,
    reason = "with iterators over the slices it was slower in the benchmark"
)]
pub fn first(instance: &Instance, chosen: &Chosen) -> Option<(u8, u8, u8)> {
    let pairs = instance.pairs;
    let at_s = limits(
        instance.surveyors,
        &instance.quota_s,
        &instance.surveyor[..pairs],
        &instance.rank_s[..pairs],
        chosen,
    );
    let at_t = limits(
        instance.stands,
        &instance.quota_t,
        &instance.stand[..pairs],
        &instance.rank_t[..pairs],
        chosen,
    );
    let mut held = [false; MAX_ENTRIES];
    for &pair in chosen.as_slice() {
        held[usize::from(pair)] = true;
    }
    let mut first = None;
    for surveyor in 0..instance.surveyors {
        let start = usize::from(instance.first[surveyor]);
        let count = instance.listed[surveyor].count_ones() as usize;
        let mut best = at_s[surveyor];
        for pair in start..start + count {
            let stand = usize::from(instance.stand[pair]);
            let welcome = instance.rank_t[pair] < at_t[stand];
            if instance.rank_s[pair] < best && welcome && !held[pair] {
                best = instance.rank_s[pair];
                first = Some(pair as u16);
            }
        }
        if first.is_some() {
            return first.map(|pair| instance.numbers(pair));
        }
    }
    None
}
