//! Plans without shifts: sets of a roster's pairs, and reading and writing their
//! bytes.

use super::roster::{Pair, Roster};
use crate::limits::MAX_PLAN_PAIRS;
use crate::reader::Reader;
use crate::refusal::Refusal;
use crate::roster::{narrow, Side, SIDES};

/// Bytes of a plan's pair.
const PAIR_FIELD: usize = 2;

/// A set of pairs, by their indices in the roster. Because the roster's pairs
/// ascend, ascending indices are ascending pairs, and the same pairs are the
/// same plan.
#[derive(Clone, Debug, Default, PartialEq, Eq)]
pub struct Plan {
    indices: Vec<usize>,
}

impl Plan {
    /// The indices of the plan's pairs, ascending.
    pub fn indices(&self) -> &[usize] {
        &self.indices
    }

    /// The plan's pairs, ascending.
    pub fn pairs<'a>(&'a self, roster: &'a Roster) -> impl Iterator<Item = Pair> + 'a {
        self.indices.iter().map(|&index| roster.pairs()[index])
    }

    /// The partners that the plan gives a node, by their numbers.
    pub fn partners(&self, roster: &Roster, side: Side, number: u8) -> Vec<u8> {
        self.pairs(roster)
            .filter(|pair| pair.end(side) == number)
            .map(|pair| pair.end(side.other()))
            .collect()
    }
}

/// Reads a plan against its roster, pair by pair.
pub fn read(roster: &Roster, file: &[u8]) -> Result<Plan, Refusal> {
    let mut reader = Reader::new(file);
    let count = reader.narrow_count(MAX_PLAN_PAIRS)?;
    let mut plan = Plan::default();
    for _ in 0..count {
        let [surveyor, stand] = reader.field::<PAIR_FIELD>()?;
        let pair = Pair { surveyor, stand };
        let index = roster.index_of(pair).ok_or(Refusal::PairNotInRoster)?;
        if plan.indices.last().is_some_and(|&last| last >= index) {
            return Err(Refusal::PairsNotAscending);
        }
        plan.indices.push(index);
        if SIDES
            .iter()
            .any(|&side| passes_quota(roster, &plan, pair, side))
        {
            return Err(Refusal::QuotaPassed);
        }
    }
    reader.end()?;
    Ok(plan)
}

/// Whether the pair's node on that side has more pairs than its stated quota.
fn passes_quota(roster: &Roster, plan: &Plan, pair: Pair, side: Side) -> bool {
    let number = pair.end(side);
    plan.partners(roster, side, number).len() > usize::from(roster.node(side, number).quota)
}

/// The bytes of a plan.
pub fn write(roster: &Roster, plan: &Plan) -> Vec<u8> {
    let mut file = vec![narrow(plan.indices.len())];
    for pair in plan.pairs(roster) {
        file.extend([pair.surveyor, pair.stand]);
    }
    file
}
