//! A finder's answer and the buffers that it wrote, held against the
//! reference's. Of a rival only what document 01 settles is asked.

use reference::desk::{Found, NoneKind};
use reference::fast;
use reference::plan::{self, Plan};
use reference::roster::{self, Roster, SIDES};
use reference::votes::plan_vote;

use crate::calls::Told;
use crate::common::plan_front;
use crate::lent::{only_front, Buffers};

/// Holds an answer on this roster and what it wrote against the reference's,
/// both lent what was in the buffers before.
pub fn same_found(
    roster: &Roster,
    before: &Buffers,
    ((found, lengths), own): (Told, &Buffers),
    (expected, mut other): (Found, Buffers),
) {
    assert_eq!(without_vote(found), without_vote(expected));
    let mut written = [0, 0];
    if let Found::None {
        kind: NoneKind::Rivalled(vote),
        ..
    } = found
    {
        let candidate = read_front(roster, &own.plan);
        let rival = check_rival(roster, &candidate, &before.rival, &own.rival, vote);
        other.rival.clone_from(&own.rival);
        written[1] = plan::write(roster, &rival).len();
    }
    if lent_a_plan(expected) {
        written[0] = plan_front(&other.plan).len();
    }
    assert_eq!(*own, other);
    assert_eq!(lengths, written, "the lengths of the plan and of its rival");
}

/// Whether a plan or a candidate goes with an answer.
fn lent_a_plan(found: Found) -> bool {
    let left = |kind| matches!(kind, NoneKind::Left(_));
    !matches!(found, Found::None { kind, .. } if left(kind))
}

/// The answer without the vote, of which only the sign is settled.
fn without_vote(found: Found) -> Found {
    match found {
        Found::None {
            steps,
            kind: NoneKind::Rivalled(vote),
        } => Found::None {
            steps,
            kind: NoneKind::Rivalled(vote.signum()),
        },
        other => other,
    }
}

/// The plan at the front of a buffer.
fn read_front(roster: &Roster, buffer: &[u8]) -> Plan {
    plan::read(roster, plan_front(buffer)).expect("a plan within the quotas")
}

/// Whether a rival was written, another plan with this vote, and nothing else;
/// gives the rival.
pub fn check_rival(roster: &Roster, plan: &Plan, before: &[u8], after: &[u8], vote: i16) -> Plan {
    let rival = read_front(roster, after);
    assert_ne!(rival, *plan);
    assert_eq!(recount(roster, plan, &rival), vote);
    only_front(before, after, &plan::write(roster, &rival));
    rival
}

/// The vote of two plans by all pairings, or by the fast reading where these are
/// too many.
fn recount(roster: &Roster, plan: &Plan, rival: &Plan) -> i16 {
    let mut nodes = SIDES.iter().flat_map(|&side| roster.nodes(side));
    if nodes.all(|node| node.quota <= 4) {
        return plan_vote(roster, plan, rival);
    }
    let instance = fast::roster::read(&roster::write(roster)).expect("accepted");
    let [mine, theirs] = [plan, rival].map(|plan| {
        let file = plan::write(roster, plan);
        fast::plan::read(&instance, &file).expect("within the quotas")
    });
    fast::vote::vote(&instance, &mine, &theirs)
}
