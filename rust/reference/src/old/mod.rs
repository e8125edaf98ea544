//! Files without shifts, read and written by the reference's own code as it was
//! before W-204 (commit 440a7f8): what an old file met then it must meet now. It
//! is here to be held against, so that nothing but tests uses it, and it is not
//! to follow later changes. Left out is what files do not need.

pub mod plan;
pub mod roster;

use crate::roster::{Entry, Side, SIDES};
use roster::{List, Node, Roster};

/// A roster that has only shift 1, without it.
pub fn without_shifts(roster: &crate::roster::Roster) -> Roster {
    let numbers = |entries: &[Entry]| entries.iter().map(|entry| entry.number).collect();
    let node = |node: &crate::roster::Node| Node {
        quota: node.quota,
        list: List {
            strict: numbers(&node.list.strict),
            tied: numbers(&node.list.tied),
        },
    };
    let nodes = |side: Side| roster.nodes(side).iter().map(node).collect();
    let [surveyors, stands] = SIDES.map(nodes);
    Roster::new(surveyors, stands).expect("both sides list the same pairs")
}
