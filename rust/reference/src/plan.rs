//! Plans: sets of a roster's pairs, and reading and writing their bytes.

use crate::layout::Layout;
use crate::limits::MAX_PLAN_PAIRS;
use crate::reader::Reader;
use crate::refusal::Refusal;
use crate::roster::{narrow, Entry, Pair, Roster, Side, SIDES};

/// A set of pairs, by their indices in the roster. Because the roster's pairs
/// ascend, ascending indices are ascending pairs, and the same pairs are the
/// same plan.
#[derive(Clone, Debug, Default, PartialEq, Eq)]
pub struct Plan {
    indices: Vec<usize>,
}

impl Plan {
    /// The indices of the plan's pairs, ascending.
    pub fn indices(&self) -> &[usize] {
        &self.indices
    }

    pub fn holds(&self, index: usize) -> bool {
        self.indices.binary_search(&index).is_ok()
    }

    /// The plan's pairs, ascending.
    pub fn pairs<'a>(&'a self, roster: &'a Roster) -> impl Iterator<Item = Pair> + 'a {
        self.indices.iter().map(|&index| roster.pairs()[index])
    }

    /// The plan's pairs at a node, as entries of the node's list.
    pub fn entries(&self, roster: &Roster, side: Side, number: u8) -> Vec<Entry> {
        self.pairs(roster)
            .filter(|pair| pair.end(side) == number)
            .map(|pair| pair.entry(side))
            .collect()
    }

    /// Whether the plan gives no node more pairs than its stated quota.
    pub fn within_quotas(&self, roster: &Roster) -> bool {
        SIDES.iter().all(|&side| {
            (1..).zip(roster.nodes(side)).all(|(number, node)| {
                self.entries(roster, side, number).len() <= usize::from(node.quota)
            })
        })
    }
}

impl FromIterator<usize> for Plan {
    fn from_iter<I: IntoIterator<Item = usize>>(indices: I) -> Self {
        let mut indices: Vec<usize> = indices.into_iter().collect();
        indices.sort_unstable();
        indices.dedup();
        Plan { indices }
    }
}

/// Reads a new plan against its roster.
pub fn read(roster: &Roster, file: &[u8]) -> Result<Plan, Refusal> {
    read_by(Layout::New, roster, file)
}

/// Reads a plan against its roster, pair by pair.
pub fn read_by(layout: Layout, roster: &Roster, file: &[u8]) -> Result<Plan, Refusal> {
    let mut reader = Reader::new(file);
    let count = reader.narrow_count(MAX_PLAN_PAIRS)?;
    let mut plan = Plan::default();
    for _ in 0..count {
        let pair = layout.pair(&mut reader)?;
        let index = roster.index_of(pair).ok_or(Refusal::PairNotInRoster)?;
        if plan.indices.last().is_some_and(|&last| last >= index) {
            return Err(Refusal::PairsNotAscending);
        }
        plan.indices.push(index);
        if SIDES
            .iter()
            .any(|&side| passes_quota(roster, &plan, pair, side))
        {
            return Err(Refusal::QuotaPassed);
        }
    }
    reader.end()?;
    Ok(plan)
}

/// Whether the pair's node on that side has more pairs than its stated quota.
fn passes_quota(roster: &Roster, plan: &Plan, pair: Pair, side: Side) -> bool {
    let number = pair.end(side);
    plan.entries(roster, side, number).len() > usize::from(roster.node(side, number).quota)
}

/// The bytes of a plan, as a new file.
pub fn write(roster: &Roster, plan: &Plan) -> Vec<u8> {
    write_by(Layout::New, roster, plan)
}

/// The bytes of a plan. An old file does not tell other shifts from shift 1.
pub fn write_by(layout: Layout, roster: &Roster, plan: &Plan) -> Vec<u8> {
    let mut file = vec![narrow(plan.indices.len())];
    for pair in plan.pairs(roster) {
        layout.put(&mut file, pair.bytes());
    }
    file
}
