//! Joining and leaving: the rosters and plans that come of it, every refusal and
//! their order, the limits.

mod common;
mod lent;

use common::{desk, desk_with_plan, roster, without_pairs, Bytes, P1, P3, P4, P5, P6, SHIFTS};
use lent::{Buffers, SIZES};
use reference::changes::{join, leave};
use reference::desk::{Desk, Found};
use reference::limits::MAX_ROSTER_BYTES;
use reference::random::{self, Random};
use reference::refusal::Refusal;
use reference::roster::{narrow, read, write, Entry, List, Node, Roster};
use Change::{Join, Leave};

/// A joiner's quota and list, or a leaver's number.
#[derive(Clone, Copy, Debug)]
enum Change<'a> {
    Join(u8, &'a [u8]),
    Leave(u8),
}

fn changed(roster: &Roster, change: Change) -> Result<Roster, Refusal> {
    match change {
        Join(quota, list) => join(roster, quota, list),
        Leave(number) => leave(roster, number),
    }
}

/// The bytes of the changed roster, which are read back to it, or the refusal's
/// number.
fn bytes_after(file: &[u8], change: Change) -> Result<Vec<u8>, u8> {
    let after = changed(&roster(file), change).map_err(Refusal::number)?;
    let bytes = write(&after);
    assert_eq!(read(&bytes), Ok(after), "{change:?}");
    Ok(bytes)
}

/// The call on a desk. On a refusal desk and buffers are as they were.
fn made(desk: Desk, change: Change, buffers: &mut Buffers) -> (Desk, Result<Found, Refusal>) {
    let (held, junk) = (desk.clone(), buffers.clone());
    let (desk, answer) = match change {
        Join(quota, list) => desk.join(quota, list, buffers.lend()),
        Leave(number) => desk.leave(number, buffers.lend()),
    };
    if answer.is_err() {
        assert_eq!((&desk, &*buffers), (&held, &junk), "{change:?}");
    }
    (desk, answer)
}

/// The desk after an accepted change.
fn after(desk: Desk, change: Change) -> Desk {
    let (desk, answer) = made(desk, change, &mut Buffers::new(SIZES));
    answer.expect("accepted");
    desk
}

/// The number that a call with buffers of their sizes is refused by, 0 for none.
fn refused(desk: &Desk, change: Change) -> u8 {
    let (_, answer) = made(desk.clone(), change, &mut Buffers::new(SIZES));
    answer.err().map_or(0, Refusal::number)
}

/// A roster, a change of it, and the bytes that come of it.
type Case = (Bytes, Change<'static>, Bytes);

#[rustfmt::skip]
const CHANGED: &[Case] = &[
    (P3, Join(1, &[1, 1, 1]), &[3, 1, 1, 1, 1, 1, 3, 0, 1, 1, 1, 1, 1, 1, 1, 1, 1, 3, 0, 2, 1, 1, 1, 2, 1, 3, 1]),
    (P3, Join(0, &[1, 1, 1]), &[3, 1, 1, 0, 1, 1, 3, 0, 1, 1, 1, 1, 1, 1, 1, 1, 1, 3, 0, 2, 1, 1, 1, 2, 1, 3, 1]),
    (P3, Join(0, &[0]), &[3, 1, 1, 0, 1, 1, 2, 0, 1, 1, 1, 1, 1, 1, 0, 2, 0, 2, 0, 1, 1, 2, 1]),
    (P3, Leave(1), &[2, 0, 1, 1, 1, 1, 0, 0, 1, 1, 1, 1, 0, 1, 0, 2, 1]),
    (P3, Leave(2), &[2, 1, 0, 1, 1, 1, 0, 1, 1, 1, 0, 1, 0, 1, 0, 1, 1]),
    // a tie grows at its end, and a tie of one stays a tie
    (P4, Join(2, &[1, 1, 1]), &[3, 1, 1, 2, 1, 1, 3, 0, 1, 1, 1, 1, 1, 1, 1, 1, 1, 3, 0, 0, 3, 1, 1, 2, 1, 3, 1]),
    (P4, Leave(2), &[2, 1, 0, 1, 1, 1, 0, 1, 1, 1, 0, 1, 0, 0, 1, 1, 1]),
    // every listed stand gets an entry, the others none
    (P6, Join(1, &[2, 2, 1, 1, 1]), &[3, 1, 1, 1, 2, 1, 1, 6, 0, 2, 1, 1, 2, 1, 2, 2, 1, 1, 1, 2, 2, 1, 1, 1, 6, 0, 2, 1, 2, 1, 1, 1, 3, 1, 2, 1, 1, 1, 2, 1, 3, 1]),
    (P6, Join(1, &[1, 2, 1]), &[3, 1, 1, 1, 2, 1, 1, 5, 0, 2, 1, 1, 2, 1, 2, 2, 1, 1, 1, 1, 2, 1, 5, 0, 2, 0, 2, 1, 1, 1, 2, 1, 1, 1, 2, 1, 3, 1]),
    (P6, Leave(1), &[2, 0, 1, 2, 1, 1, 2, 0, 0, 2, 2, 1, 1, 1, 2, 0, 1, 0, 2, 1, 1, 0, 2, 1]),
    // the joiner's shifts ascend at a stand, whatever the joiner's order
    (P3, Join(1, &[2, 1, 3, 1, 1]), &[
        3, 1, 1, 1, 1, 1, 4, 0, 1, 1, 1, 1, 1, 1, 2, 1, 3, 1, 1, 4, 0, 2, 2, 1, 1, 2, 1, 3, 1, 3, 3]),
    (P4, Join(1, &[3, 1, 2, 1, 3, 1, 1]), &[
        3, 1, 1, 1, 1, 1, 5, 0, 1, 1, 1, 1, 1, 1, 3, 1, 2, 1, 3, 1, 1, 5, 0, 0, 5, 1, 1, 2, 1, 3, 1, 3, 2, 3, 3]),
    (SHIFTS, Join(1, &[1, 1, 2]), &[
        2, 2, 1, 1, 2, 3, 0, 2, 1, 3, 1, 1, 1, 1, 2, 3, 0, 1, 2, 1, 1, 1, 3, 2, 2]),
    // a leaver goes in all shifts
    (SHIFTS, Leave(1), &[1, 0, 1, 2, 0, 0, 0, 0, 0, 0, 0]),
    // no stands, and the first surveyor of all
    (P1, Join(8, &[0]), &[1, 8, 0, 0, 0, 0, 0, 0]),
];

#[test]
fn rosters_after_a_change() {
    for &(file, change, bytes) in CHANGED {
        let after = bytes_after(file, change);
        assert_eq!(after.as_deref(), Ok(bytes), "{file:?} {change:?}");
    }
}

#[test]
fn leaving_twice() {
    for file in [P3, P4, P5, P6, SHIFTS] {
        let once = bytes_after(file, Leave(1)).expect("accepted");
        assert_eq!(bytes_after(&once, Leave(1)), Ok(once.clone()));
        // the call still answers and writes
        let [mut first, mut second] = [(); 2].map(|()| Buffers::new(SIZES));
        let (held, answer) = made(desk_with_plan(file, &[1, 1, 1, 1]), Leave(1), &mut first);
        let (again, twice) = made(held.clone(), Leave(1), &mut second);
        assert_eq!((again, twice, second), (held, answer, first));
    }
}

#[test]
fn numbers_are_not_given_twice() {
    let held = after(after(desk(P3), Leave(2)), Join(1, &[1, 1, 1]));
    let bytes = [
        3, 1, 0, 1, 1, 1, 2, 0, 1, 1, 1, 0, 1, 1, 1, 2, 0, 1, 1, 1, 1, 3, 1,
    ];
    assert_eq!(held, desk(&bytes));
    // the last one too
    let held = after(after(held, Leave(3)), Join(2, &[0]));
    let bytes = [
        4, 1, 0, 0, 2, 1, 1, 1, 0, 1, 1, 1, 0, 0, 0, 1, 0, 1, 0, 1, 1,
    ];
    assert_eq!(held, desk(&bytes));
}

#[test]
fn all_leave() {
    let held = after(
        after(desk_with_plan(P5, &[2, 1, 1, 1, 2, 1, 1]), Leave(2)),
        Leave(1),
    );
    let bytes = [2, 0, 0, 1, 2, 0, 0, 0, 0, 0, 0, 0, 0];
    assert_eq!(held, desk_with_plan(&bytes, &[0]));
}

#[test]
fn the_held_plan() {
    let both: Bytes = &[2, 1, 1, 1, 2, 1, 1];
    let cases: [(Change, Bytes); 5] = [
        (Leave(1), &[1, 2, 1, 1]),
        (Leave(2), &[1, 1, 1, 1]),
        (Join(1, &[1, 1, 1]), both),
        (Join(0, &[1, 1, 1]), both),
        (Join(8, &[0]), both),
    ];
    for (change, plan) in cases {
        let bytes = bytes_after(P5, change).expect("accepted");
        let held = after(desk_with_plan(P5, both), change);
        assert_eq!(held, desk_with_plan(&bytes, plan), "{change:?}");
        assert_eq!(after(desk(P5), change), desk(&bytes), "{change:?}");
    }
    // pairs in several shifts go and stay together
    let two: Bytes = &[2, 1, 1, 1, 1, 1, 3];
    let joined = Join(0, &[1, 1, 2]);
    let bytes = bytes_after(SHIFTS, joined).expect("accepted");
    let held = after(desk_with_plan(SHIFTS, two), joined);
    assert_eq!(held, desk_with_plan(&bytes, two));
    let bytes = bytes_after(SHIFTS, Leave(1)).expect("accepted");
    let held = after(desk_with_plan(SHIFTS, two), Leave(1));
    assert_eq!(held, desk_with_plan(&bytes, &[0]));
    // an empty plan stays held
    let held = after(desk_with_plan(P3, &[1, 1, 1, 1]), Leave(1));
    let bytes = bytes_after(P3, Leave(1)).expect("accepted");
    assert_eq!(held, desk_with_plan(&bytes, &[0]));
}

#[rustfmt::skip]
const REFUSED: &[(Bytes, Change, u8)] = &[
    (P3, Join(9, &[]), 3),
    (P3, Join(255, &[1, 1, 1]), 3),
    (P3, Join(1, &[]), 1),
    (P3, Join(1, &[1]), 1),
    (P3, Join(1, &[1, 1]), 1),
    (P3, Join(1, &[1, 9]), 1),
    (P3, Join(1, &[2, 1, 1]), 1),
    (P3, Join(1, &[32]), 1),
    (P3, Join(1, &[33, 1, 1]), 2),
    (P3, Join(1, &[33]), 2),
    (P3, Join(1, &[255, 0, 1]), 2),
    (P1, Join(1, &[1, 1, 1]), 4),
    (P1, Join(1, &[33, 1, 1]), 2),
    (P3, Join(1, &[1, 0, 1]), 4),
    (P3, Join(1, &[1, 2, 1]), 4),
    (P6, Join(1, &[2, 3, 1]), 4),
    (P6, Join(1, &[2, 0, 1, 0, 1]), 4),
    (P3, Join(1, &[1, 2, 4]), 4),
    (P3, Join(1, &[1, 1, 0]), 18),
    (P3, Join(1, &[1, 1, 4]), 18),
    (P3, Join(1, &[2, 1, 1, 1, 255]), 18),
    (P3, Join(1, &[2, 1, 4, 1, 1, 7]), 18),
    (P6, Join(1, &[2, 1, 1, 1, 1]), 5),
    (P3, Join(1, &[3, 1, 3, 1, 1, 1, 3]), 5),
    (P3, Join(1, &[2, 1, 3, 1, 1, 7]), 9),
    (P6, Join(1, &[2, 2, 1, 2, 1, 0]), 5),
    (P6, Join(1, &[2, 1, 1]), 1),
    (P6, Join(1, &[2, 1, 1, 3, 1, 9]), 4),
    (P3, Join(1, &[1, 1, 1, 7]), 9),
    (P1, Join(1, &[0, 0]), 9),
    (P3, Leave(0), 16),
    (P3, Leave(3), 16),
    (P3, Leave(255), 16),
    (P1, Leave(0), 16),
    (P1, Leave(1), 16),
];

#[test]
fn every_refusal() {
    for &(file, change, number) in REFUSED {
        assert_eq!(
            bytes_after(file, change),
            Err(number),
            "{file:?} {change:?}"
        );
        assert_eq!(refused(&desk(file), change), number, "{file:?} {change:?}");
    }
}

/// The last of all checks: what a stand's list would have then.
#[test]
fn a_stand_with_a_full_list() {
    let cases: [(usize, &[u8], u8); 12] = [
        (31, &[1, 1, 2], 0),
        (31, &[2, 1, 2, 1, 1], 2),
        (30, &[2, 1, 3, 1, 1], 0),
        (30, &[3, 1, 3, 1, 1, 1, 2], 2),
        (32, &[1, 1, 1], 2),
        (32, &[0], 0),
        (32, &[1, 2, 1], 0),
        (32, &[2, 2, 1, 1, 1], 2),
        // what is wrong with the list itself comes first
        (32, &[2, 1, 1], 1),
        (32, &[2, 1, 1, 1, 4], 18),
        (32, &[2, 1, 1, 1, 1], 5),
        (32, &[1, 1, 1, 0], 9),
    ];
    for (entries, list, number) in cases {
        let held = desk(&crowded(entries));
        assert_eq!(refused(&held, Join(1, list)), number, "{entries} {list:?}");
    }
    // a leaver makes room, in all the leaver's shifts
    let held = desk(&crowded(32));
    assert_eq!(refused(&held, Join(1, &[3, 1, 1, 1, 2, 1, 3])), 2);
    let held = after(held, Leave(4));
    let held = after(held, Join(1, &[3, 1, 1, 1, 2, 1, 3]));
    assert_eq!(refused(&held, Join(1, &[1, 1, 1])), 2);
}

/// A roster with two stands, the first with so many entries: three of each
/// surveyor, the last of whom may have fewer.
fn crowded(entries: usize) -> Vec<u8> {
    let all: Vec<Entry> = (0..entries)
        .map(|place| Entry {
            number: narrow(place / 3 + 1),
            shift: narrow(place % 3 + 1),
        })
        .collect();
    let node = |strict: Vec<Entry>| Node {
        quota: 1,
        list: List {
            strict,
            tied: Vec::new(),
        },
    };
    let surveyors = all.chunks(3).map(|own| {
        let at_stand = |entry: &Entry| Entry {
            number: 1,
            shift: entry.shift,
        };
        node(own.iter().map(at_stand).collect())
    });
    let surveyors = surveyors.collect();
    let stands = vec![node(all.clone()), node(Vec::new())];
    write(&Roster::new(surveyors, stands).expect("accepted"))
}

/// A desk with surveyors of these quotas, one stand and no pairs.
fn crowd(quotas: &[u8]) -> Desk {
    desk(&without_pairs(quotas, &[1]))
}

#[test]
fn numbers_that_are_taken() {
    let one_free = crowd(&[1; 31]);
    assert_eq!(refused(&one_free, Join(1, &[1, 1, 1])), 0);
    let full = after(one_free, Join(1, &[1, 1, 1]));
    for list in [&[1, 1, 1][..], &[0], &[], &[9]] {
        assert_eq!(refused(&full, Join(0, list)), 17, "{list:?}");
        assert_eq!(refused(&full, Join(9, list)), 3, "{list:?}");
    }
    // leavers' numbers stay taken
    let fewer = after(after(full, Leave(32)), Leave(1));
    assert_eq!(refused(&fewer, Join(1, &[1, 1, 1])), 17);
    let gone = (1..=32).fold(fewer, |desk, number| after(desk, Leave(number)));
    assert_eq!(refused(&gone, Join(0, &[0])), 17);
}

#[test]
fn sums_of_quotas() {
    let eights = crowd(&[8; 8]);
    assert_eq!(refused(&eights, Join(1, &[])), 17);
    assert_eq!(refused(&eights, Join(9, &[])), 3);
    assert_eq!(refused(&eights, Join(0, &[0])), 0);
    assert_eq!(refused(&eights, Join(0, &[])), 1);
    let some = crowd(&[8, 8, 8, 8, 8, 8, 8, 3]);
    assert_eq!(refused(&some, Join(5, &[1, 1, 1])), 0);
    assert_eq!(refused(&some, Join(6, &[1, 1, 1])), 17);
    // a leaver's quota is free again, the number is not
    let fewer = after(eights, Leave(3));
    assert_eq!(refused(&fewer, Join(8, &[1, 1, 1])), 0);
    let full = after(fewer, Join(8, &[1, 1, 1]));
    assert_eq!(refused(&full, Join(1, &[1, 1, 1])), 17);
    // the stands' quotas are not counted
    let stands = desk(&without_pairs(&[], &[8; 8]));
    assert_eq!(refused(&stands, Join(8, &[0])), 0);
}

#[test]
fn the_state_comes_first() {
    let changes = [Join(9, &[]), Join(1, &[1, 1, 1]), Leave(0), Leave(1)];
    for change in changes {
        let (_, answer) = made(Desk::default(), change, &mut Buffers::new([0; 4]));
        assert_eq!(answer, Err(Refusal::NoRosterLoaded), "{change:?}");
        for place in 0..SIZES.len() {
            let mut sizes = SIZES;
            sizes[place] -= 1;
            let (_, answer) = made(desk(P3), change, &mut Buffers::new(sizes));
            assert_eq!(answer, Err(Refusal::BufferTooSmall), "{change:?}");
        }
        let (_, answer) = made(crowd(&[2; 32]), change, &mut Buffers::new([0; 4]));
        assert_eq!(answer, Err(Refusal::BufferTooSmall), "{change:?}");
    }
}

/// The longest roster comes of a join, and no longer one does.
#[test]
fn the_longest_roster_is_joined() {
    let mut random = Random::new(21);
    let mut shape = random::longest_shape(50, 20);
    shape.counts[0] = 31..=31;
    let shorter = random::roster(&mut random, &shape);
    let list = random::fitting_list(&mut random, &shorter, 100);
    let longest = join(&shorter, 2, &list).expect("accepted");
    let bytes = write(&longest);
    assert_eq!(
        (bytes.len(), longest.pairs().len()),
        (MAX_ROSTER_BYTES, 1_024)
    );
    assert_eq!(read(&bytes), Ok(longest));
}
