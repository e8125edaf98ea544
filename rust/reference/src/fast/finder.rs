//! The finder for speed: the reduction, then the verdict on the fixed pairs.

use super::plan::Chosen;
use super::reduction::{reduce, Step};
use super::roster::Instance;
use super::verdict::{judge, Rival, Verdict};
use crate::limits::{MAX_NODES, MAX_PLAN_PAIRS};

/// The steps, and what they come to.
pub struct Answer {
    pub steps: Vec<Step>,
    pub ending: Ending,
}

/// The endings; pairs are places in the instance.
pub enum Ending {
    Plan(Chosen),
    Left(Vec<u16>),
    Rivalled { candidate: Chosen, rival: Rival },
}

/// Finds the strongly popular plan, or says why there is none.
pub fn find(instance: &Instance) -> Answer {
    let reduced = reduce(instance);
    let left = places(instance, &reduced.left);
    let ending = if left.is_empty() {
        judged(instance, &places(instance, &reduced.fixed))
    } else {
        Ending::Left(left)
    };
    Answer {
        steps: reduced.steps,
        ending,
    }
}

fn judged(instance: &Instance, fixed: &[u16]) -> Ending {
    let mut candidate = Chosen {
        count: fixed.len(),
        pairs: [0; MAX_PLAN_PAIRS],
    };
    candidate.pairs[..fixed.len()].copy_from_slice(fixed);
    match judge(instance, &candidate) {
        Verdict::Strong => Ending::Plan(candidate),
        Verdict::Popular(rival) | Verdict::Beaten(rival) => Ending::Rivalled { candidate, rival },
    }
}

/// The pairs of a set given as bits of each surveyor's pairs, ascending.
fn places(instance: &Instance, set: &[u32; MAX_NODES]) -> Vec<u16> {
    let holds = |&pair: &u16| {
        let surveyor = usize::from(instance.surveyor[usize::from(pair)]);
        set[surveyor] >> (pair - instance.first[surveyor]) & 1 == 1
    };
    (0..instance.pairs as u16).filter(holds).collect()
}
