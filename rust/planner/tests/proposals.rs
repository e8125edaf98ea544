//! Propose, then commit, through the wrapper: a session, every refusal and their
//! order, what closes a proposal and what does not, and desks whose bytes no call
//! has left there. Every call is held against the reference.

mod calls;
mod change;
mod common;
mod found;
mod lent;
mod taken;

use calls::Calls;
use change::Change::{Join, Leave};
use common::{desk_with, desk_with_plan, files, junk, plan_of, RANKED, TIED};
use lent::{Buffers, SIZES};
use planner::{Desk, Group};
use reference::desk::Facing;
use reference::random::{self, Random, Shape};
use reference::{plan, roster};
use taken::{Answer, Call};

/// Plans of one pair and of two, and the empty one.
const ONE: &[u8] = &[1, 1, 1, 1];
const TWO: &[u8] = &[2, 1, 1, 1, 2, 1, 1];
const NONE: &[u8] = &[0];
/// The second pair alone.
const OTHER: &[u8] = &[1, 2, 1, 1];

fn load_roster(file: &[u8]) -> Call {
    Call::LoadRoster(file.to_vec())
}

fn load_plan(file: &[u8]) -> Call {
    Call::LoadPlan(file.to_vec())
}

fn propose(file: &[u8]) -> Call {
    Call::Propose(file.to_vec())
}

fn join(quota: u8, list: &[u8]) -> Call {
    Call::Change(Join(quota, list.to_vec()))
}

fn leave(number: u8) -> Call {
    Call::Change(Leave(number))
}

fn buffers() -> Buffers {
    Buffers::new(&mut Random::new(1), SIZES)
}

fn made(desk: &mut Desk, call: &Call) -> Answer {
    call.check(desk, buffers)
}

/// What a commit would answer.
fn committed(desk: &Desk) -> Answer {
    made(&mut desk.clone(), &Call::Commit)
}

/// A desk that holds a plan of the tied roster, with a proposal beside it.
fn proposed(held: &[u8], proposal: &[u8]) -> Desk {
    let mut desk = desk_with_plan(&TIED, held).expect("accepted");
    assert!(made(&mut desk, &propose(proposal)).is_ok());
    desk
}

/// The desk with these bytes in the proposal's array, and this length.
fn with_bytes(mut desk: Desk, bytes: &[u8], length: usize) -> Desk {
    desk.proposal[..bytes.len()].copy_from_slice(bytes);
    desk.proposal_len = length;
    desk
}

/// Calls that are taken and close a proposal, where the second of two pairs is
/// held and the first proposed, or both are held.
fn closing() -> Vec<Call> {
    vec![
        load_roster(&TIED),
        load_roster(&RANKED),
        load_plan(NONE),
        load_plan(ONE),
        Call::Commit,
        join(0, &[0]),
        join(1, &[1, 1, 1]),
        leave(2),
    ]
}

/// Each call with its answer, and with the plan and the proposal then, no bytes
/// for none.
#[test]
fn a_session() {
    let none: &[u8] = &[];
    let steps: [(Call, Answer, [&[u8]; 2]); 17] = [
        (Call::Commit, Err(13), [none; 2]),
        (propose(ONE), Err(13), [none; 2]),
        (load_roster(&TIED), Ok(None), [none; 2]),
        (Call::Commit, Err(14), [none; 2]),
        (propose(ONE), Err(14), [none; 2]),
        (load_plan(ONE), Ok(None), [ONE, none]),
        (Call::Commit, Err(20), [ONE, none]),
        (propose(TWO), Ok(Some((2, -2))), [ONE, TWO]),
        (propose(&[9]), Err(1), [ONE, TWO]),
        (Call::Commit, Ok(None), [TWO, none]),
        (Call::Commit, Err(20), [TWO, none]),
        (leave(2), Ok(None), [ONE, none]),
        (propose(NONE), Ok(Some((-2, 2))), [ONE, NONE]),
        (leave(2), Ok(None), [ONE, NONE]),
        (join(9, &[]), Err(3), [ONE, NONE]),
        (Call::Commit, Ok(None), [NONE, none]),
        (Call::Commit, Err(20), [NONE, none]),
    ];
    let mut desk = Desk::open();
    for (call, answer, [plan, proposal]) in steps {
        assert_eq!(made(&mut desk, &call), answer, "{call:?}");
        assert_eq!(files(&desk)[1..], [plan, proposal], "{call:?}");
        assert_eq!(plan_of(&desk).unwrap_or_default(), plan, "{call:?}");
    }
}

#[test]
fn votes_are_against_the_held_plan() {
    let cases = [(TWO, (2, -2)), (ONE, (0, 0)), (NONE, (-2, 2))];
    for open in [
        desk_with_plan(&TIED, ONE).expect("accepted"),
        proposed(ONE, TWO),
    ] {
        for (file, votes) in cases {
            let mut desk = open.clone();
            assert_eq!(made(&mut desk, &propose(file)), Ok(Some(votes)));
            assert_eq!(files(&desk)[1..], [ONE, file]);
        }
    }
    // the stand ranks 1 before 2
    let mut desk = desk_with_plan(&RANKED, ONE).expect("accepted");
    assert_eq!(made(&mut desk, &propose(OTHER)), Ok(Some((-1, 1))));
}

#[test]
fn refusals_in_their_order() {
    let cases: [(&[u8], &[u8], u8); 11] = [
        (&TIED, &[], 1),
        (&TIED, &[1, 1, 1], 1),
        (&TIED, &[65], 2),
        (&TIED, &[1, 3, 1, 1], 10),
        (&TIED, &[1, 1, 1, 4], 10),
        (&TIED, &[2, 1, 1, 1, 1, 1, 1], 11),
        (&RANKED, TWO, 12),
        (&TIED, &[0, 0], 9),
        // the first of several
        (&TIED, &[2, 0, 1, 1], 10),
        (&RANKED, &[3, 1, 1, 1, 2, 1, 1], 12),
        (&RANKED, &[2, 1, 1, 1, 2, 1, 1, 9], 12),
    ];
    for (roster, file, number) in cases {
        let with_roster = desk_with(roster).expect("accepted");
        let mut with_plan = desk_with_plan(roster, ONE).expect("accepted");
        for (mut desk, refused, commit) in [
            (Desk::open(), 13, 13),
            (with_roster, 14, 14),
            (with_plan.clone(), number, 20),
        ] {
            let answer = made(&mut desk, &propose(file));
            assert_eq!(answer, Err(refused), "{file:?}");
            assert_eq!(committed(&desk), Err(commit), "{file:?}");
        }
        // an open proposal stays open
        assert!(made(&mut with_plan, &propose(NONE)).is_ok());
        assert_eq!(made(&mut with_plan, &propose(file)), Err(number));
        assert_eq!(committed(&with_plan), Ok(None), "{file:?}");
    }
}

#[test]
fn twenty_is_of_the_desk() {
    let mut desk = desk_with_plan(&TIED, ONE).expect("accepted");
    let refusal = desk.commit().expect_err("none is open");
    assert_eq!((refusal.number, refusal.group), (20, Group::Desk));
    assert_eq!(refusal.to_string(), "no proposal is open");
}

#[test]
fn what_closes_a_proposal() {
    for held in [OTHER, TWO] {
        for call in closing() {
            let mut desk = proposed(held, ONE);
            assert_eq!(made(&mut desk, &call), Ok(None), "{call:?}");
            assert_eq!(desk.proposal_len, 0, "{call:?}");
            if plan_of(&desk).is_err() {
                assert_eq!(committed(&desk), Err(14), "{call:?}");
                assert_eq!(made(&mut desk, &load_plan(NONE)), Ok(None));
            }
            assert_eq!(committed(&desk), Err(20), "{call:?}");
            // nothing but the length keeps what was proposed from being open
            let again = with_bytes(desk, ONE, ONE.len());
            assert_eq!(committed(&again), Ok(None), "{call:?}");
        }
    }
}

/// A leaver with a pair and no quota closes it, and one with a quota and no pair.
#[test]
fn leavers_with_little() {
    let file = [
        4, 0, 1, 0, 1, 1, 1, 2, 0, 1, 1, 1, 0, 0, 1, 1, 1, 2, 0, 2, 0, 1, 1, 4, 1,
    ];
    let held = &[1, 4, 1, 1];
    for (leaver, expected) in [(1, Err(20)), (2, Err(20)), (3, Ok(None))] {
        let mut desk = desk_with_plan(&file, held).expect("accepted");
        assert!(made(&mut desk, &propose(NONE)).is_ok());
        assert_eq!(made(&mut desk, &leave(leaver)), Ok(None));
        assert_eq!(plan_of(&desk), Ok(held.to_vec()));
        assert_eq!(committed(&desk), expected, "{leaver}");
    }
}

/// What was proposed and is closed is not open again, whatever comes after it,
/// until there is a new proposal.
#[test]
fn stale_bytes_stay_closed() {
    let mut after = closing();
    after.extend([leave(1), leave(3), load_plan(&[9]), load_roster(&[9])]);
    for first in closing() {
        for second in &after {
            for third in &after {
                let mut desk = proposed(TWO, ONE);
                assert_eq!(made(&mut desk, &first), Ok(None), "{first:?}");
                for call in [second, third, &load_plan(NONE)] {
                    // each is answered as by the reference, whatever that is
                    let _ = made(&mut desk, call);
                    let commit = committed(&desk);
                    assert!(
                        matches!(commit, Err(14 | 20)),
                        "{first:?}, {second:?}, {third:?}: {commit:?}"
                    );
                }
            }
        }
    }
}

#[test]
fn refused_calls_leave_it_open() {
    let refused = [
        (load_roster(&[1, 9]), 3),
        (load_plan(&[1, 3, 1, 1]), 10),
        (propose(&[2, 2, 1, 1, 1, 1, 1]), 11),
        (join(9, &[]), 3),
        (join(1, &[1, 2, 1]), 4),
        (leave(0), 16),
        (leave(3), 16),
    ];
    let mut desk = proposed(ONE, TWO);
    for (call, number) in refused {
        assert_eq!(made(&mut desk, &call), Err(number), "{call:?}");
        assert_eq!(files(&desk)[2], TWO, "{call:?}");
    }
    // short buffers
    for call in [join(1, &[0]), leave(1)] {
        for place in 0..SIZES.len() {
            let mut sizes = SIZES;
            sizes[place] -= 1;
            let short = || Buffers::new(&mut Random::new(2), sizes);
            assert_eq!(call.check(&mut desk, short), Err(15), "{call:?}");
        }
    }
    assert_eq!(committed(&desk), Ok(None));
}

/// A call that is lent a buffer, with its answer in words.
type Look = dyn Fn(calls::Desk, &mut [u8]) -> (calls::Desk, String);

/// What the calls that only look answer and write.
fn looks(desk: &Desk) -> Vec<(String, Vec<u8>)> {
    let before = junk(&mut Random::new(3), planner::ROSTER_BYTES);
    let mut seen = Vec::new();
    let mut look = |call: &Look| {
        let mut out = before.clone();
        let (calls::Desk(after), answer) = call(calls::Desk(desk.clone()), &mut out);
        assert!(after == *desk, "{answer}");
        seen.push((answer, out));
    };
    look(&|desk, out| told(desk.write_roster(out)));
    look(&|desk, out| told(desk.write_plan(out)));
    look(&|desk, out| {
        let (rival, pairing) = out.split_at_mut(planner::PLAN_BYTES);
        told(desk.judge(rival, pairing))
    });
    look(&|desk, _| told(desk.blocking()));
    look(&|desk, out| {
        let (forward, back) = out.split_at_mut(planner::PAIRING_BYTES);
        told(desk.compare(ONE, TWO, Facing { forward, back }))
    });
    look(&|desk, out| told(desk.plan_to_new(&[1, 2, 1], out)));
    look(&|desk, out| told(desk.plan_to_old(OTHER, out)));
    look(&|desk, _| {
        let mut lent = buffers();
        let (desk, found) = desk.find(lent.lend());
        (desk, format!("{found:?} {lent:?}"))
    });
    seen
}

fn told<A: std::fmt::Debug>((desk, answer): (calls::Desk, A)) -> (calls::Desk, String) {
    (desk, format!("{answer:?}"))
}

/// The plan that is held is the one that is looked at.
#[test]
fn calls_that_look_see_the_held_plan() {
    for [held, proposal] in [[ONE, TWO], [TWO, ONE], [ONE, OTHER], [NONE, TWO]] {
        let open = proposed(held, proposal);
        let seen = looks(&open);
        assert_eq!(seen, looks(&desk_with_plan(&TIED, held).expect("accepted")));
        // written, judged, looked at for a blocking pair
        let other = looks(&proposed(proposal, held));
        assert_ne!(seen[1], other[1]);
        if [held, proposal].contains(&TWO) {
            assert_ne!(seen[2], other[2]);
        }
        assert_ne!(seen[3], other[3]);
        assert_eq!(committed(&open), Ok(None));
    }
}

/// Bytes that no call has left in the proposal's array are a proposal if they are
/// a plan of the roster, beside a held plan.
#[test]
fn any_bytes_in_the_array() {
    let held = desk_with_plan(&TIED, OTHER).expect("accepted");
    let whole = planner::PLAN_BYTES;
    for length in [0, 1, 2, 3, 5, 7, whole - 1, whole, whole + 1, usize::MAX] {
        let desk = with_bytes(held.clone(), ONE, length);
        assert_eq!(committed(&desk), Err(20), "{length}");
    }
    let open = with_bytes(held.clone(), ONE, ONE.len());
    assert_eq!(committed(&open), Ok(None));
    let no_plans: [&[u8]; 5] = [
        &[9],
        &[65, 1, 1, 1],
        &[1, 3, 1, 1],
        &[2, 1, 1, 1, 1, 1, 1],
        &[0, 0],
    ];
    for bytes in no_plans {
        let mut desk = with_bytes(held.clone(), bytes, bytes.len());
        assert_eq!(committed(&desk), Err(20), "{bytes:?}");
        // and are not in the way of one
        assert_eq!(made(&mut desk, &propose(ONE)), Ok(Some((0, 0))));
        assert_eq!(committed(&desk), Ok(None), "{bytes:?}");
    }
    // without a plan or without a roster it is none
    for (desk, number) in [
        (desk_with(&TIED).expect("accepted"), 14),
        (Desk::open(), 13),
    ] {
        let desk = with_bytes(desk, ONE, ONE.len());
        assert_eq!(committed(&desk), Err(number));
        let mut loaded = desk;
        assert_eq!(loaded.load_roster(&TIED), Ok(()));
        assert_eq!(made(&mut loaded, &load_plan(OTHER)), Ok(None));
        assert_eq!(committed(&loaded), Err(20));
    }
    let mut desk = with_bytes(held, ONE, ONE.len());
    desk.plan_len = 3;
    assert_eq!(committed(&desk), Err(14));
    assert_eq!(made(&mut desk, &load_plan(OTHER)), Ok(None));
    assert_eq!(committed(&desk), Err(20));
}

/// Bytes that are no plan of the held roster do not become a proposal when
/// somebody joins or leaves.
#[test]
fn bytes_that_a_change_makes_a_plan() {
    // surveyor 3 is not there yet
    let held = desk_with_plan(&TIED, NONE).expect("accepted");
    let mut desk = with_bytes(held, &[1, 3, 1, 1], 4);
    assert_eq!(committed(&desk), Err(20));
    // somebody who has left leaves the bytes, whatever they are
    assert_eq!(made(&mut desk, &leave(1)), Ok(None));
    desk = with_bytes(desk, &[1, 3, 1, 1], 4);
    assert_eq!(made(&mut desk, &leave(1)), Ok(None));
    assert_eq!(files(&desk)[2], [1, 3, 1, 1]);
    assert_eq!(committed(&desk), Err(20));
    assert_eq!(made(&mut desk, &join(1, &[1, 1, 1])), Ok(None));
    assert_eq!(committed(&desk), Err(20));
    let again = with_bytes(desk, &[1, 3, 1, 1], 4);
    assert_eq!(committed(&again), Ok(None));
}

/// A proposal that fills its array, also where the length is above it.
#[test]
fn the_longest_proposal() {
    let mut random = Random::new(4);
    let shape = Shape {
        counts: [8..=8, 8..=8],
        quotas: [8..=8, 8..=8],
        shifts: 1,
        pairs: 100,
        ties: 50,
        opposed: 50,
    };
    let roster = random::roster(&mut random, &shape);
    let file = plan::write(&roster, &random::maximal_plan(&mut random, &roster));
    assert_eq!(file.len(), planner::PLAN_BYTES);
    let mut desk = desk_with_plan(&roster::write(&roster), NONE).expect("accepted");
    assert_eq!(made(&mut desk, &propose(&file)), Ok(Some((128, -128))));
    let longer = file.len() + 1;
    for length in [file.len(), longer, usize::MAX] {
        let mut desk = with_bytes(desk.clone(), &[], length);
        assert_eq!(made(&mut desk, &Call::Commit), Ok(None), "{length}");
        assert_eq!(plan_of(&desk), Ok(file.clone()), "{length}");
    }
    let mut longer_file = file.clone();
    longer_file.push(0);
    assert_eq!(made(&mut desk, &propose(&longer_file)), Err(9));
    assert_eq!(files(&desk)[2], file);
}
