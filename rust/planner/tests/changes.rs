//! Joining and leaving through the wrapper, against the reference: the examples
//! and limits, plan bytes that are no plan, damaged lists, and rosters up to the
//! limits. Every change looks at the answer, every byte lent, the desk's own
//! bytes and a find afresh.

mod calls;
mod change;
mod common;
mod found;
mod lent;

use change::Change::{self, Join, Leave};
use common::{desk_with, desk_with_plan, front, number, plan_of, Met, RANKED, TIED};
use lent::{Buffers, SIZES};
use planner::{Desk, Group};
use reference::desk::{Desk as Held, Found, NoneKind};
use reference::random::{self, fitting_list, Random};
use reference::roster::{self, narrow, Roster, Side};

/// No surveyors, no stands.
const EMPTY: [u8; 6] = [0; 6];

fn joiner(quota: u8, list: &[u8]) -> Change {
    Join(quota, list.to_vec())
}

/// Makes a change with buffers of their sizes: the number of its refusal, 0 for
/// none.
fn made(desk: &mut Desk, change: &Change) -> u8 {
    let before = Buffers::new(&mut Random::new(1), SIZES);
    let answer = change.check_desk(desk, &before);
    answer.err().unwrap_or(0)
}

/// The number that a change would be refused by, 0 for none.
fn refused(desk: &Desk, change: &Change) -> u8 {
    made(&mut desk.clone(), change)
}

/// The desk after changes that are all taken.
fn after(mut desk: Desk, changes: impl IntoIterator<Item = Change>) -> Desk {
    for change in changes {
        assert_eq!(made(&mut desk, &change), 0, "{change:?}");
    }
    desk
}

fn roster_of(desk: &Desk) -> &[u8] {
    front(&desk.roster, desk.roster_len)
}

fn ranked() -> Desk {
    desk_with(&RANKED).expect("accepted")
}

/// A desk with surveyors of these quotas, one stand, no pairs and the empty plan.
fn crowd(quotas: &[u8]) -> Desk {
    let mut file = vec![narrow(quotas.len())];
    file.extend(quotas);
    file.extend([1, 1, 0, 0]);
    file.extend(quotas.iter().map(|_| 0));
    file.extend([0, 0, 0, 0]);
    desk_with_plan(&file, &[0]).expect("accepted")
}

#[test]
fn rosters_after_a_change() {
    let joined = after(ranked(), [joiner(1, &[1, 1, 1])]);
    let bytes = [
        3, 1, 1, 1, 1, 1, 3, 0, 1, 1, 1, 1, 1, 1, 1, 1, 1, 3, 0, 2, 1, 1, 1, 2, 1, 3, 1,
    ];
    assert_eq!(roster_of(&joined), bytes);
    let joined = after(ranked(), [joiner(0, &[0])]);
    let bytes = [
        3, 1, 1, 0, 1, 1, 2, 0, 1, 1, 1, 1, 1, 1, 0, 2, 0, 2, 0, 1, 1, 2, 1,
    ];
    assert_eq!(roster_of(&joined), bytes);
    let joined = after(ranked(), [joiner(0, &[1, 1, 1])]);
    let bytes = [
        3, 1, 1, 0, 1, 1, 3, 0, 1, 1, 1, 1, 1, 1, 1, 1, 1, 3, 0, 2, 1, 1, 1, 2, 1, 3, 1,
    ];
    assert_eq!(roster_of(&joined), bytes);
    let left = after(ranked(), [Leave(1)]);
    let bytes = [2, 0, 1, 1, 1, 1, 0, 0, 1, 1, 1, 1, 0, 1, 0, 2, 1];
    assert_eq!(roster_of(&left), bytes);
    assert_eq!(roster_of(&after(left, [Leave(1)])), bytes);
}

/// The joiner's shifts ascend at a stand, whatever the joiner's own order.
#[test]
fn a_joiner_in_several_shifts() {
    let joined = after(ranked(), [joiner(1, &[2, 1, 3, 1, 1])]);
    let bytes = [
        3, 1, 1, 1, 1, 1, 4, 0, 1, 1, 1, 1, 1, 1, 2, 1, 3, 1, 1, 4, 0, 2, 2, 1, 1, 2, 1, 3, 1, 3, 3,
    ];
    assert_eq!(roster_of(&joined), bytes);
    // the plan may have both, and loses both
    let mut tied = desk_with(&TIED).expect("accepted");
    tied = after(tied, [joiner(2, &[3, 1, 3, 1, 1, 1, 2])]);
    tied.load_plan(&[2, 3, 1, 1, 3, 1, 3]).expect("accepted");
    assert_eq!(plan_of(&after(tied, [Leave(3)])), Ok(vec![0]));
}

/// The last of all checks: what a stand's list would have then.
#[test]
fn a_stand_with_a_full_list() {
    // three entries of each of ten surveyors
    let three: &[u8] = &[3, 1, 3, 1, 1, 1, 2];
    let thirty = after(crowd(&[]), (0..10).map(|_| joiner(1, three)));
    assert_eq!(refused(&thirty, &joiner(1, three)), 2);
    assert_eq!(refused(&thirty, &joiner(1, &[2, 1, 2, 1, 1])), 0);
    let more = after(thirty, [joiner(1, &[1, 1, 3])]);
    assert_eq!(refused(&more, &joiner(1, &[2, 1, 2, 1, 1])), 2);
    let full = after(more, [joiner(1, &[1, 1, 2])]);
    assert_eq!(refused(&full, &joiner(1, &[0])), 0);
    let lists: [(&[u8], u8); 5] = [
        (&[1, 1, 2], 2),
        // what is wrong with the list itself comes first
        (&[2, 1, 2], 1),
        (&[2, 1, 2, 1, 4], 18),
        (&[2, 1, 2, 1, 2], 5),
        (&[1, 1, 2, 0], 9),
    ];
    for (list, expected) in lists {
        assert_eq!(refused(&full, &joiner(1, list)), expected, "{list:?}");
        assert_eq!(refused(&full, &joiner(9, list)), 3, "{list:?}");
    }
    // a leaver makes room
    let fewer = after(full, [Leave(4), joiner(1, three)]);
    assert_eq!(refused(&fewer, &joiner(1, &[1, 1, 2])), 2);
}

#[test]
fn the_first_and_the_last() {
    // the first of all, then the next
    let empty = desk_with(&EMPTY).expect("accepted");
    let first = after(empty.clone(), [joiner(8, &[0])]);
    assert_eq!(roster_of(&first), [1, 8, 0, 0, 0, 0, 0, 0]);
    let second = after(first.clone(), [joiner(0, &[0])]);
    assert_eq!(roster_of(&second), [2, 8, 0, 0, 0, 0, 0, 0, 0, 0]);
    assert_eq!(refused(&first, &joiner(1, &[1, 1, 1])), 4);
    assert_eq!(refused(&empty, &Leave(1)), 16);
    // all leave, and one joins after them
    let tied = desk_with_plan(&TIED, &[2, 1, 1, 1, 2, 1, 1]).expect("accepted");
    let gone = after(tied, [Leave(2), Leave(1)]);
    assert_eq!(roster_of(&gone), [2, 0, 0, 1, 2, 0, 0, 0, 0, 0, 0, 0, 0]);
    assert_eq!(plan_of(&gone), Ok(vec![0]));
    let joined = after(gone, [Leave(1), joiner(1, &[1, 1, 1])]);
    let bytes = [3, 0, 0, 1, 1, 2, 1, 0, 0, 0, 1, 1, 1, 1, 0, 0, 1, 3, 1];
    assert_eq!(roster_of(&joined), bytes);
    assert_eq!(plan_of(&joined), Ok(vec![0]));
}

#[test]
fn the_held_plan() {
    let both = [2, 1, 1, 1, 2, 1, 1];
    let tied = desk_with_plan(&TIED, &both).expect("accepted");
    let plan_after = |change| plan_of(&after(tied.clone(), [change]));
    assert_eq!(plan_after(Leave(1)), Ok(vec![1, 2, 1, 1]));
    assert_eq!(plan_after(Leave(2)), Ok(vec![1, 1, 1, 1]));
    assert_eq!(plan_after(joiner(1, &[1, 1, 1])), Ok(both.to_vec()));
    assert_eq!(plan_after(joiner(0, &[0])), Ok(both.to_vec()));
    let none = desk_with(&TIED).expect("accepted");
    assert_eq!(plan_of(&after(none, [Leave(1), joiner(1, &[0])])), Err(14));
}

/// Plan bytes that are no plan of the held roster do not become one.
#[test]
fn bytes_that_are_no_plan() {
    // surveyor 3 is not there yet
    let mut desk = ranked();
    desk.plan[..4].copy_from_slice(&[1, 3, 1, 1]);
    desk.plan_len = 4;
    assert_eq!(plan_of(&desk), Err(14));
    let joined = after(desk, [joiner(1, &[1, 1, 1])]);
    assert_eq!(plan_of(&joined), Err(14));
    // the stand has quota 1; without the leaver's pair the plan would fit
    let mut desk = ranked();
    desk.plan[..7].copy_from_slice(&[2, 1, 1, 1, 2, 1, 1]);
    desk.plan_len = 7;
    assert_eq!(plan_of(&desk), Err(14));
    for number in [1, 2] {
        let left = after(desk.clone(), [Leave(number)]);
        assert_eq!(plan_of(&left), Err(14), "{number}");
    }
    // lengths above their arrays are the whole arrays
    let mut desk = ranked();
    desk.plan[0] = 64;
    desk.plan_len = usize::MAX;
    let changed = after(desk, [Leave(2), joiner(1, &[1, 1, 1])]);
    assert_eq!(plan_of(&changed), Err(14));
}

#[test]
fn numbers_that_are_taken() {
    let full = after(crowd(&[1; 31]), [joiner(1, &[1, 1, 1])]);
    for list in [&[1, 1, 1][..], &[0], &[], &[9]] {
        assert_eq!(refused(&full, &joiner(0, list)), 17, "{list:?}");
        assert_eq!(refused(&full, &joiner(9, list)), 3, "{list:?}");
    }
    // leavers' numbers stay taken
    let gone = after(full, (1..=32).map(Leave));
    assert_eq!(refused(&gone, &joiner(0, &[0])), 17);
    assert_eq!(refused(&gone, &Leave(32)), 0);
    assert_eq!(refused(&gone, &Leave(33)), 16);
}

#[test]
fn sums_of_quotas() {
    let eights = crowd(&[8; 8]);
    assert_eq!(refused(&eights, &joiner(1, &[])), 17);
    assert_eq!(refused(&eights, &joiner(0, &[])), 1);
    assert_eq!(refused(&eights, &joiner(0, &[1, 1, 1])), 0);
    let some = crowd(&[8, 8, 8, 8, 8, 8, 8, 3]);
    assert_eq!(refused(&some, &joiner(5, &[1, 1, 1])), 0);
    assert_eq!(refused(&some, &joiner(6, &[1, 1, 1])), 17);
    // a leaver's quota is free again
    let again = after(eights, [Leave(3), joiner(8, &[1, 1, 1])]);
    assert_eq!(refused(&again, &joiner(1, &[1, 1, 1])), 17);
}

#[test]
fn orders_of_refusals() {
    let full = crowd(&[2; 32]);
    let lists: [(&[u8], u8); 12] = [
        (&[], 1),
        (&[1], 1),
        (&[1, 9], 1),
        (&[33, 1], 2),
        (&[1, 0, 1], 4),
        (&[1, 2, 1], 4),
        (&[1, 2, 4], 4),
        (&[1, 1, 0], 18),
        (&[2, 1, 1, 1, 4], 18),
        (&[2, 1, 1, 1, 1], 5),
        (&[1, 1, 1, 7], 9),
        (&[3, 1, 3, 1, 1, 1, 2, 7], 9),
    ];
    for (list, expected) in lists {
        assert_eq!(refused(&ranked(), &joiner(1, list)), expected, "{list:?}");
        assert_eq!(refused(&ranked(), &joiner(9, list)), 3, "{list:?}");
        assert_eq!(refused(&full, &joiner(8, list)), 17, "{list:?}");
    }
    let mut random = Random::new(51);
    for change in [joiner(9, &[]), joiner(1, &[1, 1, 1]), Leave(0), Leave(1)] {
        for place in 0..SIZES.len() {
            for missing in [1, SIZES[place]] {
                let mut sizes = SIZES;
                sizes[place] -= missing;
                let before = Buffers::new(&mut random, sizes);
                for (mut desk, expected) in [(full.clone(), 15), (Desk::open(), 13)] {
                    let answer = change.check_desk(&mut desk, &before);
                    assert_eq!(answer, Err(expected), "{change:?}");
                }
            }
        }
    }
}

#[test]
fn the_new_numbers_are_content() {
    let calls = |desk: &mut Desk| {
        let mut diary = vec![planner::Step::default(); planner::DIARY_RECORDS];
        let mut left = [0; planner::LEFT_BYTES];
        let [mut plan, mut rival] = [[0; planner::PLAN_BYTES]; 2];
        let (plan, rival) = (&mut plan, &mut rival);
        [
            desk.leave(0, &mut diary, &mut left, plan, rival),
            desk.join(0, &[0], &mut diary, &mut left, plan, rival),
            ranked().join(0, &[1, 1, 4], &mut diary, &mut left, plan, rival),
        ]
    };
    for (expected, answer) in (16..).zip(calls(&mut crowd(&[2; 32]))) {
        let refusal = answer.expect_err("refused");
        assert_eq!((refusal.number, refusal.group), (expected, Group::Content));
        assert_ne!(refusal.to_string(), "refused");
    }
}

#[test]
fn damaged_lists() {
    let mut random = Random::new(52);
    let mut met = Met::default();
    for _ in 0..30_000 {
        let shape = random::small_shape(&mut random);
        let roster = random::roster(&mut random, &shape);
        let mut desk = desk_with(&roster::write(&roster)).expect("accepted");
        let change = Change::joiner(&mut random, &Held::Roster(roster));
        let before = Buffers::new(&mut random, SIZES);
        let answer = change.check_desk(&mut desk, &before);
        met.count(answer.err().unwrap_or(0));
    }
    met.require(&[0, 1, 2, 3, 4, 5, 9, 18], 200);
}

/// How often each ending came.
#[derive(Debug, Default)]
struct Endings {
    plan: usize,
    left: usize,
    rivalled: usize,
}

impl Endings {
    fn count(&mut self, found: Found) {
        match found {
            Found::Plan { .. } => self.plan += 1,
            Found::None { kind, .. } => match kind {
                NoneKind::Left(_) => self.left += 1,
                NoneKind::Rivalled(_) => self.rivalled += 1,
            },
        }
    }

    fn assert_at_least(&self, least: usize) {
        println!("{self:?}");
        assert!(self.plan.min(self.left).min(self.rivalled) >= least);
    }
}

/// A desk with this roster and a plan of it.
fn loaded(random: &mut Random, roster: &Roster) -> Desk {
    let plan = random::maximal_plan(random, roster);
    let plan = reference::plan::write(roster, &plan);
    desk_with_plan(&roster::write(roster), &plan).expect("accepted")
}

/// A joiner with a small quota and a list of this share of what the stands have
/// room for.
fn any_joiner(random: &mut Random, roster: &Roster, percent: u8) -> Change {
    let quota = random.within(&(0..=2));
    Join(quota, fitting_list(random, roster, percent))
}

#[test]
fn rosters_up_to_the_limits() {
    let mut random = Random::new(53);
    let mut endings = Endings::default();
    for _ in 0..4_000 {
        let mut shape = random::any_shape(&mut random);
        // with room for a joiner, and somebody to leave
        shape.counts[0] = 1..=*shape.counts[0].end() - 1;
        let roster = random::roster(&mut random, &shape);
        let mut desk = loaded(&mut random, &roster);
        let leaver = random.within(&(1..=narrow(roster.nodes(Side::Surveyors).len())));
        for change in [any_joiner(&mut random, &roster, 40), Leave(leaver)] {
            let before = Buffers::new(&mut random, SIZES);
            endings.count(change.check_large(&mut desk, &before));
        }
    }
    endings.assert_at_least(100);
}

/// One joins 31 others and fills all stands' lists, which makes the longest
/// roster; then one of the 32 leaves.
#[test]
fn the_longest_rosters() {
    let mut random = Random::new(54);
    let mut endings = Endings::default();
    for turn in 0..200 {
        let [ties, opposed] = [[0, 0], [50, 20], [100, 50], [60, 100]][turn % 4];
        let mut shape = random::longest_shape(ties, opposed);
        shape.counts[0] = 31..=31;
        let roster = random::roster(&mut random, &shape);
        let mut desk = loaded(&mut random, &roster);
        let leaver = random.within(&(1..=32));
        let joiner = any_joiner(&mut random, &roster, 100);
        for (change, length) in [(joiner, 4_262), (Leave(leaver), 4_134)] {
            let before = Buffers::new(&mut random, SIZES);
            endings.count(change.check_large(&mut desk, &before));
            assert_eq!(desk.roster_len, length);
        }
    }
    println!("random: {endings:?}");
    for turn in 0..100 {
        let (roster, _) = match turn % 4 {
            0 => random::chained(&mut random),
            tied => random::agreed(&mut random, 2 * (tied - 1)),
        };
        let mut desk = loaded(&mut random, &roster);
        let change = Leave(random.within(&(1..=32)));
        let before = Buffers::new(&mut random, SIZES);
        endings.count(change.check_large(&mut desk, &before));
    }
    endings.assert_at_least(10);
}

#[test]
fn a_new_desk_has_nothing_loaded() {
    let mut desk = Desk::open();
    let (diary, left, plan, rival) = (&mut [], &mut [], &mut [], &mut []);
    assert_eq!(number(&desk.join(9, &[], diary, left, plan, rival)), 13);
    assert_eq!(number(&desk.leave(0, diary, left, plan, rival)), 13);
}
