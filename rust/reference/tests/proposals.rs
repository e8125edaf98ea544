//! Propose, then commit: what is held after each call, every refusal and their
//! order, the votes; and what the history of a session tells.

mod common;
mod lent;

use common::{desk, desk_with_plan, Bytes, P3, P5};
use lent::{Buffers, Pairings, SIZES};
use reference::compare::Votes;
use reference::desk::Desk;
use reference::history::{pairs, Event, History, Numbers};
use reference::limits::{MAX_PAIRING_BYTES, MAX_PLAN_BYTES, MAX_ROSTER_BYTES};
use reference::refusal::{Group, Refusal};
use Call::{Commit, Join, Leave, LoadPlan, LoadRoster, Propose};

/// P5's plans of one pair and of two, and the empty one.
const ONE: Bytes = &[1, 1, 1, 1];
const TWO: Bytes = &[2, 1, 1, 1, 2, 1, 1];
const NONE: Bytes = &[0];

/// P5 after its second surveyor has left.
const LEFT: Bytes = &[2, 1, 0, 1, 2, 1, 0, 1, 1, 1, 0, 1, 0, 0, 1, 1, 1];

/// The calls that can change what is held.
#[derive(Clone, Copy, Debug)]
enum Call {
    LoadRoster(Bytes),
    LoadPlan(Bytes),
    Propose(Bytes),
    Commit,
    Join(u8, Bytes),
    Leave(u8),
}

/// The call, answered by votes where it proposes, or refused by its number.
fn made(desk: Desk, call: Call) -> (Desk, Result<Option<(i16, i16)>, u8>) {
    let held = desk.clone();
    let done = |answer: Result<(), Refusal>| answer.map(|()| None);
    let mut buffers = Buffers::new(SIZES);
    let mut pairings = Pairings::new([MAX_PAIRING_BYTES; 2]);
    let (desk, answer) = match call {
        LoadRoster(file) => then(desk.load_roster(file), done),
        LoadPlan(file) => then(desk.load_plan(file), done),
        Propose(file) => then(desk.propose(file, pairings.lend()), |answer| {
            answer.map(both)
        }),
        Commit => then(desk.commit(), done),
        Join(quota, list) => then(desk.join(quota, list, buffers.lend()), |answer| {
            answer.map(|_| None)
        }),
        Leave(number) => then(desk.leave(number, buffers.lend()), |answer| {
            answer.map(|_| None)
        }),
    };
    if answer.is_err() {
        assert_eq!(desk, held, "{call:?}");
    }
    (desk, answer.map_err(Refusal::number))
}

fn then<A, B>((desk, answer): (Desk, A), told: impl FnOnce(A) -> B) -> (Desk, B) {
    (desk, told(answer))
}

/// The proposal's vote against the held plan, and the reverse.
fn both(votes: Votes) -> Option<(i16, i16)> {
    Some((votes.first_against_second, votes.second_against_first))
}

/// A desk that holds a plan, with a proposal beside it.
fn proposed(roster: &[u8], held: &[u8], proposal: &[u8]) -> Desk {
    let mut pairings = Pairings::new([MAX_PAIRING_BYTES; 2]);
    let (desk, answer) = desk_with_plan(roster, held).propose(proposal, pairings.lend());
    answer.expect("accepted");
    desk
}

#[test]
fn a_session() {
    let held = desk_with_plan;
    let steps = [
        (Commit, Err(13), Desk::default()),
        (Propose(ONE), Err(13), Desk::default()),
        (LoadRoster(P5), Ok(None), desk(P5)),
        (Commit, Err(14), desk(P5)),
        (Propose(ONE), Err(14), desk(P5)),
        (LoadPlan(ONE), Ok(None), held(P5, ONE)),
        (Commit, Err(20), held(P5, ONE)),
        (Propose(TWO), Ok(Some((2, -2))), proposed(P5, ONE, TWO)),
        (Propose(&[9]), Err(1), proposed(P5, ONE, TWO)),
        (Commit, Ok(None), held(P5, TWO)),
        (Commit, Err(20), held(P5, TWO)),
        (Leave(2), Ok(None), held(LEFT, ONE)),
        (Propose(NONE), Ok(Some((-2, 2))), proposed(LEFT, ONE, NONE)),
        (Leave(2), Ok(None), proposed(LEFT, ONE, NONE)),
        (Join(9, &[]), Err(3), proposed(LEFT, ONE, NONE)),
        (Commit, Ok(None), held(LEFT, NONE)),
    ];
    let mut desk = Desk::default();
    for (call, answer, after) in steps {
        let (now, given) = made(desk, call);
        assert_eq!((given, &now), (answer, &after), "{call:?}");
        desk = now;
    }
}

#[test]
fn what_closes_a_proposal() {
    let closing = [
        (LoadRoster(P5), desk(P5)),
        (LoadRoster(P3), desk(P3)),
        (LoadPlan(NONE), desk_with_plan(P5, NONE)),
        (LoadPlan(ONE), desk_with_plan(P5, ONE)),
        (Commit, desk_with_plan(P5, TWO)),
        (Leave(2), desk_with_plan(LEFT, ONE)),
    ];
    for (call, after) in closing {
        let (desk, answer) = made(proposed(P5, ONE, TWO), call);
        assert_eq!((desk, answer), (after, Ok(None)), "{call:?}");
    }
    // a join leaves the held plan's pairs, and closes
    let (desk, _) = made(proposed(P5, ONE, TWO), Join(0, &[0]));
    assert_eq!(desk.proposal(), Err(Refusal::NoProposalOpen));
    assert_eq!(written(desk), ONE);
    // a leaver with a pair and no quota, and one with a quota and no pair
    let idle = &[
        3, 0, 1, 1, 1, 1, 2, 0, 1, 1, 1, 0, 1, 1, 1, 2, 0, 2, 0, 1, 1, 3, 1,
    ];
    for number in [1, 2] {
        let (desk, _) = made(proposed(idle, &[1, 3, 1, 1], NONE), Leave(number));
        assert_eq!(desk.proposal(), Err(Refusal::NoProposalOpen), "{number}");
        assert_eq!(written(desk), [1, 3, 1, 1]);
    }
}

#[test]
fn what_leaves_a_proposal_open() {
    let refused = [
        (LoadRoster(&[1, 9]), 3),
        (LoadPlan(&[1, 3, 1, 1]), 10),
        (Propose(&[2, 2, 1, 1, 1, 1, 1]), 11),
        (Join(1, &[1, 2, 1]), 4),
        (Leave(3), 16),
    ];
    for (call, number) in refused {
        let (_, answer) = made(proposed(P5, ONE, TWO), call);
        assert_eq!(answer, Err(number), "{call:?}");
    }
    let open = proposed(P5, ONE, TWO);
    let mut out = [0; MAX_ROSTER_BYTES];
    let plan = &mut [0; MAX_PLAN_BYTES];
    let mut buffers = Buffers::new(SIZES);
    assert_eq!(open.clone().write_roster(&mut out).0, open);
    assert_eq!(open.clone().write_plan(plan).0, open);
    assert_eq!(open.clone().find(buffers.lend()).0, open);
    let mut pairings = Pairings::new([MAX_PAIRING_BYTES; 2]);
    assert_eq!(open.clone().judge(plan, &mut pairings.forward).0, open);
    assert_eq!(open.clone().compare(ONE, TWO, pairings.lend()).0, open);
    assert_eq!(open.clone().blocking().0, open);
    assert_eq!(open.clone().plan_to_new(NONE, plan).0, open);
    assert_eq!(open.clone().plan_to_old(NONE, plan).0, open);
    // short buffers
    let mut short = Buffers::new([0; 4]);
    assert_eq!(open.clone().join(1, &[0], short.lend()).0, open);
    assert_eq!(open.clone().leave(1, short.lend()).0, open);
    // the plan that is held is the one that is looked at
    assert_eq!(written(open.clone()), ONE);
    assert!(open.blocking().1.expect("held").is_some());
    assert!(proposed(P5, TWO, ONE).blocking().1.expect("held").is_none());
}

#[test]
fn votes_are_against_the_held_plan() {
    let cases = [(TWO, (2, -2)), (ONE, (0, 0)), (NONE, (-2, 2))];
    for open in [desk_with_plan(P5, ONE), proposed(P5, ONE, TWO)] {
        for (file, votes) in cases {
            let (desk, answer) = made(open.clone(), Propose(file));
            assert_eq!(answer, Ok(Some(votes)), "{file:?}");
            assert_eq!(desk, proposed(P5, ONE, file), "{file:?}");
        }
    }
}

#[test]
fn refusals_of_a_proposal() {
    let cases: [(Bytes, Bytes, u8); 6] = [
        (P5, &[], 1),
        (P5, &[65], 2),
        (P5, &[0, 0], 9),
        (P5, &[1, 3, 1, 1], 10),
        (P5, &[2, 1, 1, 1, 1, 1, 1], 11),
        (P3, TWO, 12),
    ];
    for (roster, file, number) in cases {
        let (_, answer) = made(Desk::default(), Propose(file));
        assert_eq!(answer, Err(13), "{file:?}");
        let (_, answer) = made(desk(roster), Propose(file));
        assert_eq!(answer, Err(14), "{file:?}");
        let (_, answer) = made(desk_with_plan(roster, ONE), Propose(file));
        assert_eq!(answer, Err(number), "{file:?}");
    }
    assert_eq!(Refusal::NoProposalOpen.group(), Group::Desk);
}

/// The bytes of the held plan.
fn written(desk: Desk) -> Vec<u8> {
    let mut out = [0; MAX_PLAN_BYTES];
    let (_, length) = desk.write_plan(&mut out);
    out[..length.expect("held")].to_vec()
}

/// What a roster and then these events tell.
fn told(events: &[Event]) -> Option<Vec<Numbers>> {
    let mut history = History::default();
    history.tell::<(), ()>(&Ok(()), || Event::LoadRoster);
    for event in events {
        history.tell::<(), ()>(&Ok(()), || event.clone());
    }
    history.plan()
}

#[test]
fn what_a_history_tells() {
    let [none, one, two] = [NONE, ONE, TWO].map(|file| Some(pairs(file)));
    let load = |file| Event::LoadPlan(pairs(file));
    let propose = |file| Event::Propose(pairs(file));
    let (commit, leave) = (|| Event::Commit, Event::Leave);
    assert_eq!(History::default().plan(), None);
    assert_eq!(told(&[]), None);
    assert_eq!(told(&[load(TWO)]), two);
    assert_eq!(told(&[load(TWO), Event::LoadRoster]), None);
    assert_eq!(told(&[load(TWO), leave(2)]), one);
    assert_eq!(told(&[load(TWO), leave(2), leave(1)]), none);
    assert_eq!(told(&[leave(2), load(TWO)]), two);
    assert_eq!(told(&[leave(1)]), None);
    assert_eq!(told(&[load(ONE), propose(TWO)]), one);
    assert_eq!(told(&[load(ONE), propose(TWO), leave(1)]), none);
    assert_eq!(told(&[load(ONE), propose(TWO), commit()]), two);
    assert_eq!(told(&[load(ONE), propose(TWO), commit(), leave(2)]), one);
    assert_eq!(told(&[load(ONE), propose(TWO), commit(), load(NONE)]), none);
    let twice = [load(TWO), propose(NONE), propose(ONE), commit()];
    assert_eq!(told(&twice), one);
}

#[test]
fn refused_calls_tell_nothing() {
    let mut history = History::default();
    history.tell::<(), ()>(&Ok(()), || Event::LoadRoster);
    history.tell::<(), ()>(&Ok(()), || Event::LoadPlan(pairs(TWO)));
    history.tell::<(), u8>(&Err(1), || Event::LoadRoster);
    history.tell::<(), u8>(&Err(16), || Event::Leave(1));
    history.tell::<(), u8>(&Err(20), || Event::Commit);
    history.tell::<(), u8>(&Err(10), || Event::LoadPlan(pairs(ONE)));
    assert_eq!(history.plan(), Some(pairs(TWO)));
}
