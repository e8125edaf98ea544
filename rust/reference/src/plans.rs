//! All plans within the quotas, and verdicts by the votes against all of them.

use crate::plan::Plan;
use crate::roster::{Roster, SIDES};
use crate::votes::plan_vote;

/// A plan that ties with or beats another, and the other's vote against it.
#[derive(Clone, Debug, PartialEq, Eq)]
pub struct Rival<P> {
    pub plan: P,
    pub vote: i16,
}

/// What the votes against all other plans make of a plan. `P` is how the
/// rival is named.
#[derive(Clone, Debug, PartialEq, Eq)]
pub enum Verdict<P> {
    Strong,
    Popular(Rival<P>),
    Beaten(Rival<P>),
}

/// Calls `visit` with every plan within the stated quotas, as ascending pair
/// indices: the empty plan first, then by leaving a pair out before taking it.
pub fn for_each_plan(roster: &Roster, visit: &mut impl FnMut(&[usize])) {
    let mut room = SIDES.map(|side| {
        let nodes = roster.nodes(side).iter();
        nodes.map(|node| node.quota).collect::<Vec<u8>>()
    });
    extend(roster, 0, &mut room, &mut Vec::new(), visit);
}

/// Goes through all ways to extend `chosen` by pairs from `next` on, with
/// `room` telling what is left of each quota.
fn extend(
    roster: &Roster,
    next: usize,
    room: &mut [Vec<u8>; 2],
    chosen: &mut Vec<usize>,
    visit: &mut impl FnMut(&[usize]),
) {
    let Some(pair) = roster.pairs().get(next) else {
        return visit(chosen);
    };
    extend(roster, next + 1, room, chosen, visit);
    let ends = SIDES.map(|side| (side as usize, usize::from(pair.end(side)) - 1));
    if ends.iter().any(|&(side, node)| room[side][node] == 0) {
        return;
    }
    for (side, node) in ends {
        room[side][node] -= 1;
    }
    chosen.push(next);
    extend(roster, next + 1, room, chosen, visit);
    chosen.pop();
    for (side, node) in ends {
        room[side][node] += 1;
    }
}

/// All plans within the stated quotas.
pub fn all_plans(roster: &Roster) -> Vec<Plan> {
    let mut plans = Vec::new();
    for_each_plan(roster, &mut |indices| {
        plans.push(indices.iter().copied().collect());
    });
    plans
}

/// The verdict on a plan, given all other plans and its vote against each: the
/// first that beats it is the rival, else the first that ties.
pub fn judge<P>(others: impl IntoIterator<Item = P>, vote: impl Fn(&P) -> i16) -> Verdict<P> {
    let mut tying = None;
    for plan in others {
        let vote = vote(&plan);
        if vote < 0 {
            return Verdict::Beaten(Rival { plan, vote });
        }
        if vote == 0 && tying.is_none() {
            tying = Some(Rival { plan, vote });
        }
    }
    tying.map_or(Verdict::Strong, Verdict::Popular)
}

/// The verdict on a plan by the votes against all plans within the quotas.
pub fn verdict(roster: &Roster, plan: &Plan) -> Verdict<Plan> {
    verdict_among(roster, &all_plans(roster), plan)
}

/// The verdict on a plan, with all plans within the quotas at hand.
fn verdict_among(roster: &Roster, plans: &[Plan], plan: &Plan) -> Verdict<Plan> {
    let others = plans.iter().filter(|&other| other != plan).cloned();
    judge(others, |rival| plan_vote(roster, plan, rival))
}

/// The strongly popular plans; their number is the count of demand 3.
pub fn strongly_popular(roster: &Roster) -> Vec<Plan> {
    let plans = all_plans(roster);
    let strong = |plan: &&Plan| verdict_among(roster, &plans, plan) == Verdict::Strong;
    plans.iter().filter(strong).cloned().collect()
}
