//! Votes: of two ranks, of a node by trying all pairings, and of two plans.

use crate::limits::EMPTY_RANK;
use crate::plan::Plan;
use crate::roster::{narrow, Entry, List, Node, Roster, SIDES};

/// What fills a place at a node: an entry of its list, or nothing.
pub type Place = Option<Entry>;

/// The rank of a place: a strict entry's position from 1, counted over all
/// shifts, the next number for every tied entry, and a rank behind all of them
/// for an empty place.
pub fn rank(list: &List, place: Place) -> u8 {
    let Some(filled) = place else {
        return EMPTY_RANK;
    };
    match list.strict.iter().position(|&entry| entry == filled) {
        Some(position) => narrow(position + 1),
        None => {
            assert!(list.tied.contains(&filled), "a place has a listed entry");
            narrow(list.strict.len() + 1)
        }
    }
}

/// The vote of rank `a` against rank `b`: the lower rank wins.
pub fn rank_vote(a: u8, b: u8) -> i16 {
    match a.cmp(&b) {
        std::cmp::Ordering::Less => 1,
        std::cmp::Ordering::Equal => 0,
        std::cmp::Ordering::Greater => -1,
    }
}

/// A node's vote of the entries `mine` against the entries `theirs`: the least
/// sum over the valid pairings.
pub fn node_vote(node: &Node, mine: &[Entry], theirs: &[Entry]) -> i16 {
    least_sum(node, mine, theirs).expect("a valid pairing exists")
}

/// The least sum over all valid pairings of quota places against quota places,
/// or none if no pairing is valid.
pub fn least_sum(node: &Node, mine: &[Entry], theirs: &[Entry]) -> Option<i16> {
    let mut least = None;
    for_each_pairing(node, mine, theirs, |mine, theirs| {
        let sum = sum(&node.list, mine, theirs);
        least = Some(least.map_or(sum, |least: i16| least.min(sum)));
    });
    least
}

/// Calls `visit` with every valid pairing. The places of `mine` keep their order
/// while those of `theirs` run through all their orders.
pub(crate) fn for_each_pairing(
    node: &Node,
    mine: &[Entry],
    theirs: &[Entry],
    mut visit: impl FnMut(&[Place], &[Place]),
) {
    let mine = places(node, mine);
    let mut theirs = places(node, theirs);
    for_each_order(&mut theirs, 0, &mut |theirs| {
        if is_valid(&mine, theirs) {
            visit(&mine, theirs);
        }
    });
}

/// As many places as the node's quota: one for each entry, the rest empty.
fn places(node: &Node, entries: &[Entry]) -> Vec<Place> {
    let quota = usize::from(node.quota);
    assert!(entries.len() <= quota, "a plan within the quotas");
    let mut places: Vec<Place> = entries.iter().copied().map(Some).collect();
    places.resize(quota, None);
    places
}

/// Calls `visit` with every order of the places from `start` on.
fn for_each_order(places: &mut [Place], start: usize, visit: &mut impl FnMut(&[Place])) {
    if start == places.len() {
        return visit(places);
    }
    for next in start..places.len() {
        places.swap(start, next);
        for_each_order(places, start + 1, visit);
        places.swap(start, next);
    }
}

/// Whether shared pairs face themselves, and an empty place of `mine` faces a
/// pair only if no pair of `mine` faces an empty place.
fn is_valid(mine: &[Place], theirs: &[Place]) -> bool {
    let facing = || mine.iter().zip(theirs);
    let shared_faces_itself =
        facing().all(|(own, other)| own.is_none() || own == other || !theirs.contains(own));
    let empty_faces_pair = facing().any(|(own, other)| own.is_none() && other.is_some());
    let pair_faces_empty = facing().any(|(own, other)| own.is_some() && other.is_none());
    shared_faces_itself && !(empty_faces_pair && pair_faces_empty)
}

/// The votes of a pairing, summed.
pub(crate) fn sum(list: &List, mine: &[Place], theirs: &[Place]) -> i16 {
    let facing = mine.iter().zip(theirs);
    facing
        .map(|(&own, &other)| rank_vote(rank(list, own), rank(list, other)))
        .sum()
}

/// The vote of `plan` against `rival`: the sum of all nodes' votes.
pub fn plan_vote(roster: &Roster, plan: &Plan, rival: &Plan) -> i16 {
    let mut total = 0;
    for side in SIDES {
        for (number, node) in (1..).zip(roster.nodes(side)) {
            let mine = plan.entries(roster, side, number);
            let theirs = rival.entries(roster, side, number);
            total += node_vote(node, &mine, &theirs);
        }
    }
    total
}
