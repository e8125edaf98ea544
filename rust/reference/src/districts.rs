//! Two districts on one tablet (W-210): joining two rosters puts the second's
//! surveyors and stands after the first's, numbers moved up. Both come as files,
//! the first checked in full before the second; then sums past document 01's limits
//! meet 2 and then 3.

use crate::lent::{enough, put};
use crate::limits::{MAX_ENTRIES, MAX_NODES, MAX_QUOTA_SUM, MAX_ROSTER_BYTES};
use crate::plan::Plan;
use crate::refusal::Refusal;
use crate::roster::{self, narrow, Entry, List, Node, Pair, Roster, Side, SIDES};

/// Writes the file of two rosters joined and tells its length.
pub fn join(first: &[u8], second: &[u8], out: &mut [u8]) -> Result<usize, Refusal> {
    enough(out.len(), MAX_ROSTER_BYTES)?;
    let first = roster::read(first)?;
    let second = roster::read(second)?;
    check_sums([&first, &second])?;
    Ok(put(out, &roster::write(&side_by_side(&first, &second))))
}

/// The sums of both rosters against document 01's limits: all of 2 before any
/// of 3.
fn check_sums(rosters: [&Roster; 2]) -> Result<(), Refusal> {
    let past = |limit, of: fn(&[Node]) -> usize| {
        let sum = |side| -> usize { rosters.iter().map(|roster| of(roster.nodes(side))).sum() };
        SIDES.iter().any(|&side| sum(side) > limit)
    };
    if past(MAX_NODES, <[Node]>::len) || past(MAX_ENTRIES, entries) {
        return Err(Refusal::CountAboveLimit);
    }
    if past(MAX_QUOTA_SUM, quotas) {
        return Err(Refusal::QuotaAboveLimit);
    }
    Ok(())
}

fn entries(nodes: &[Node]) -> usize {
    nodes.iter().map(|node| node.list.length()).sum()
}

fn quotas(nodes: &[Node]) -> usize {
    nodes.iter().map(|node| usize::from(node.quota)).sum()
}

/// The roster of two that have nobody in common. The caller has checked the sums.
pub fn side_by_side(first: &Roster, second: &Roster) -> Roster {
    let [surveyors, stands] = SIDES.map(|side| {
        let up = count(first, side.other());
        let moved = second.nodes(side).iter().map(|node| moved_up(node, up));
        first.nodes(side).iter().cloned().chain(moved).collect()
    });
    Roster::new(surveyors, stands).expect("both sides list the same pairs")
}

fn count(roster: &Roster, side: Side) -> u8 {
    narrow(roster.nodes(side).len())
}

/// A node whose list names the other side's nodes so many numbers higher.
fn moved_up(node: &Node, up: u8) -> Node {
    let entry = |&Entry { number, shift }: &Entry| Entry {
        number: number + up,
        shift,
    };
    let entries = |entries: &[Entry]| entries.iter().map(entry).collect();
    Node {
        quota: node.quota,
        list: List {
            strict: entries(&node.list.strict),
            tied: entries(&node.list.tied),
        },
    }
}

/// Two plans side by side, as pairs of the joined roster: the first's, then the
/// second's with numbers moved up.
pub fn pairs_beside(rosters: [&Roster; 2], plans: [&Plan; 2]) -> Vec<Pair> {
    let [first, second] = rosters;
    let moved = plans[1].pairs(second).map(|pair| Pair {
        surveyor: pair.surveyor + count(first, Side::Surveyors),
        stand: pair.stand + count(first, Side::Stands),
        shift: pair.shift,
    });
    plans[0].pairs(first).chain(moved).collect()
}
