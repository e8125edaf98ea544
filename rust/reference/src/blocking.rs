//! Blocking pairs of a plan, and the one that is shown.

use crate::plan::Plan;
use crate::roster::{Pair, Roster, Side, SIDES};
use crate::votes::rank;

/// All blocking pairs, ascending: pairs of the roster outside the plan for
/// which both ends have room or would give up a pair they like less.
pub fn blocking_pairs(roster: &Roster, plan: &Plan) -> Vec<usize> {
    (0..roster.pairs().len())
        .filter(|&pair| !plan.holds(pair))
        .filter(|&pair| SIDES.iter().all(|&side| welcomes(roster, plan, pair, side)))
        .collect()
}

/// The blocking pair that is shown: of the lowest surveyor that has one, the
/// pair that stands best in this surveyor's list.
pub fn first_blocking_pair(roster: &Roster, plan: &Plan) -> Option<Pair> {
    let pairs = blocking_pairs(roster, plan).into_iter();
    pairs.map(|pair| roster.pairs()[pair]).min_by_key(|pair| {
        let list = &roster.node(Side::Surveyors, pair.surveyor).list;
        (pair.surveyor, rank(list, Some(pair.entry(Side::Surveyors))))
    })
}

/// Whether the pair's end on that side has an unfilled quota or a strictly
/// worse pair in the plan. A tied pair is not strictly worse.
fn welcomes(roster: &Roster, plan: &Plan, pair: usize, side: Side) -> bool {
    let pair = roster.pairs()[pair];
    let number = pair.end(side);
    let node = roster.node(side, number);
    let held = plan.entries(roster, side, number);
    let own = rank(&node.list, Some(pair.entry(side)));
    held.len() < usize::from(node.quota)
        || held
            .iter()
            .any(|&entry| rank(&node.list, Some(entry)) > own)
}
