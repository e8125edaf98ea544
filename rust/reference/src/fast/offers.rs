//! Plain offers for speed: for each surveyor the pairs by rank, for each stand
//! the pair that it keeps, and a stack of those who have none.

use super::plan::{self, Chosen};
use super::roster::{self, Instance};
use super::verdict::{judge, Verdict};
use crate::limits::{MAX_ENTRIES, MAX_LIST, MAX_NODES, MAX_PLAN_BYTES, MAX_PLAN_PAIRS, OLD_SHIFT};

/// No pair.
const NONE: u16 = MAX_ENTRIES as u16;

/// Writes the plan of the offers and tells whether it is strong, and its length.
pub fn profile(file: &[u8], out: &mut [u8]) -> Result<(bool, usize), u8> {
    if out.len() < MAX_PLAN_BYTES {
        return Err(15);
    }
    let instance = roster::read(file)?;
    if !one_to_one(&instance) {
        return Err(22);
    }
    let plan = offers(&instance);
    let strong = matches!(judge(&instance, &plan), Verdict::Strong);
    Ok((strong, plan::write(&instance, &plan, out)))
}

/// All quotas one, one shift and no ties.
fn one_to_one(instance: &Instance) -> bool {
    let one = |quotas: &[u8]| quotas.iter().all(|&quota| quota == 1);
    one(&instance.quota_s[..instance.surveyors])
        && one(&instance.quota_t[..instance.stands])
        && !instance.tied[..instance.pairs].contains(&true)
        && (instance.shift[..instance.pairs].iter()).all(|&shift| shift == OLD_SHIFT)
}

fn offers(instance: &Instance) -> Chosen {
    // the pairs of a surveyor by rank, which counts from 1
    let mut ranked = [[NONE; MAX_LIST + 2]; MAX_NODES];
    for pair in 0..instance.pairs {
        let surveyor = usize::from(instance.surveyor[pair]);
        ranked[surveyor][usize::from(instance.rank_s[pair])] = pair as u16;
    }
    let mut next = [1usize; MAX_NODES];
    let mut kept = [NONE; MAX_NODES];
    for first in 0..instance.surveyors {
        let mut surveyor = first;
        loop {
            let offer = ranked[surveyor][next[surveyor]];
            if offer == NONE {
                break;
            }
            next[surveyor] += 1;
            let stand = &mut kept[usize::from(instance.stand[usize::from(offer)])];
            if *stand == NONE {
                *stand = offer;
                break;
            }
            let rank = |pair: u16| instance.rank_t[usize::from(pair)];
            if rank(offer) < rank(*stand) {
                surveyor = usize::from(instance.surveyor[usize::from(*stand)]);
                *stand = offer;
            }
        }
    }
    chosen(&kept[..instance.stands])
}

/// The pairs that the stands keep, ascending.
fn chosen(kept: &[u16]) -> Chosen {
    let mut plan = Chosen {
        count: 0,
        pairs: [0; MAX_PLAN_PAIRS],
    };
    for &pair in kept.iter().filter(|&&pair| pair != NONE) {
        plan.pairs[plan.count] = pair;
        plan.count += 1;
    }
    plan.pairs[..plan.count].sort_unstable();
    plan
}
