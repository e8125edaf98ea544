//! Who faced whom: the pairing that a node's vote comes with, found by trying
//! all pairings, and the pairings of a vote of two plans as bytes.

use crate::fast;
use crate::limits::MAX_PAIRING_BYTES;
use crate::plan::{self, Plan};
use crate::roster::{self, Entry, Node, Roster, SIDES};
use crate::votes::{for_each_pairing, node_vote, rank, sum};

/// The ranks of two places that face each other, the own one first.
pub type RankPair = (u8, u8);

/// The pairing of a node's vote of the entries `mine` against the entries
/// `theirs`: of the valid pairings that reach the least sum the one whose
/// ascending list of rank pairs is smallest entry by entry, in that order.
pub fn pairing(node: &Node, mine: &[Entry], theirs: &[Entry]) -> Vec<RankPair> {
    let vote = node_vote(node, mine, theirs);
    let mut smallest: Option<Vec<RankPair>> = None;
    for_each_pairing(node, mine, theirs, |mine, theirs| {
        if sum(&node.list, mine, theirs) > vote {
            return;
        }
        let facing = mine.iter().zip(theirs);
        let mut pairs: Vec<RankPair> = facing
            .map(|(&own, &other)| (rank(&node.list, own), rank(&node.list, other)))
            .collect();
        pairs.sort_unstable();
        if smallest.as_ref().is_none_or(|least| pairs < *least) {
            smallest = Some(pairs);
        }
    });
    smallest.expect("a valid pairing reaches the vote")
}

/// The pairings of the vote of `plan` against `rival`: two bytes a place, the
/// surveyors' nodes before the stands', ascending.
pub fn bytes(roster: &Roster, plan: &Plan, rival: &Plan) -> Vec<u8> {
    let mut bytes = Vec::new();
    for side in SIDES {
        for (number, node) in (1..).zip(roster.nodes(side)) {
            let mine = plan.entries(roster, side, number);
            let theirs = rival.entries(roster, side, number);
            for (own, other) in pairing(node, &mine, &theirs) {
                bytes.extend([own, other]);
            }
        }
    }
    bytes
}

/// The same by the fast reading, for quotas with more pairings than can be tried.
pub fn bytes_large(roster: &Roster, plan: &Plan, rival: &Plan) -> Vec<u8> {
    let instance = fast::roster::read(&roster::write(roster)).expect("accepted");
    let chosen = |plan| fast::plan::read(&instance, &plan::write(roster, plan)).expect("accepted");
    let mut bytes = vec![0; MAX_PAIRING_BYTES];
    let length = fast::pairing::write(&instance, &chosen(plan), &chosen(rival), &mut bytes);
    bytes.truncate(length);
    bytes
}
