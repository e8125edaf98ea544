//! The proved readers and writers, through the desk, against the reference:
//! every answer, and every byte of every buffer, which are filled with junk
//! first.

mod common;

use std::fmt::Debug;

use common::{check_written, damage, junk, length, number, same_refusal, shape, Met};
use common::{compared, desk_with, desk_with_plan};
use planner::Desk;
use reference::limits::MAX_SHIFT;
use reference::plan;
use reference::random::{self, Random};
use reference::refusal::Refusal;
use reference::roster::{self, Roster, SIDES};
use reference::votes;

/// Loads and writes one roster file on both sides. A refused one is not held.
fn check_roster(random: &mut Random, met: &mut Met, file: &[u8]) {
    let expected = roster::read(file);
    let answer = planner::read_roster(file);
    check_answer(&answer, &expected, file);
    met.count(number(&answer));
    let mut desk = Desk::open();
    assert_eq!(desk.load_roster(file), answer);
    let before = {
        let length = length(random, planner::ROSTER_BYTES);
        junk(random, length)
    };
    let mut out = before.clone();
    let written = desk.write_roster(&mut out);
    met.count(number(&written));
    let expected = match expected {
        Err(_) => Err(13),
        Ok(_) if before.len() < planner::ROSTER_BYTES => Err(15),
        Ok(roster) => Ok(roster::write(&roster)),
    };
    check_written(written, expected, &before, &out);
}

/// Whether both sides accept a file, or refuse it alike.
fn check_answer<T: Debug>(
    answer: &Result<(), planner::Refusal>,
    expected: &Result<T, Refusal>,
    file: &[u8],
) {
    match (answer, expected) {
        (Ok(()), Ok(_)) => {}
        (Err(ours), Err(theirs)) => same_refusal(*ours, *theirs),
        _ => panic!("{answer:?} {expected:?} {file:?}"),
    }
}

#[test]
fn every_short_file() {
    let mut random = Random::new(1);
    let mut met = Met::default();
    check_roster(&mut random, &mut met, &[]);
    for first in 0..=255u8 {
        check_roster(&mut random, &mut met, &[first]);
        for second in 0..=255u8 {
            check_roster(&mut random, &mut met, &[first, second]);
        }
    }
    let bytes = [0u8, 1, 2, 9, 33];
    for length in 3..=7u32 {
        for code in 0..bytes.len().pow(length) {
            let digit = |place| bytes[code / bytes.len().pow(place) % bytes.len()];
            let file: Vec<u8> = (0..length).map(digit).collect();
            check_roster(&mut random, &mut met, &file);
        }
    }
    met.require(&[1, 2, 3, 7, 9, 13], 5);
    met.require(&[0], 2);
}

#[test]
fn random_and_damaged_rosters() {
    let mut random = Random::new(2);
    let mut met = Met::default();
    for _ in 0..600_000 {
        let shape = shape(&mut random);
        let mut file = roster::write(&random::roster(&mut random, &shape));
        for _ in 0..random.below(3) {
            damage(&mut random, &mut file);
        }
        check_roster(&mut random, &mut met, &file);
    }
    met.require(&[0, 1, 2, 3, 4, 5, 6, 7, 8, 9, 13, 15, 18], 500);
}

#[test]
fn rosters_at_the_limits() {
    let mut random = Random::new(3);
    let mut met = Met::default();
    let mut full = random::longest_shape(50, 20);
    full.quotas = [1..=2, 1..=2];
    for turn in 0..2_000 {
        let mut file = roster::write(&random::roster(&mut random, &full));
        assert_eq!(file.len(), planner::ROSTER_BYTES);
        if turn % 2 == 1 {
            damage(&mut random, &mut file);
        }
        check_roster(&mut random, &mut met, &file);
    }
    met.require(&[0, 15], 50);
}

/// Whether the desk knows the roster's pairs and no others: a plan of one pair
/// is taken if the pair is there in that shift and both quotas allow it.
fn check_pairs(roster: &Roster, desk: &mut Desk) {
    let [surveyors, stands] = SIDES.map(|side| roster.nodes(side).len() as u8);
    for surveyor in 1..=surveyors {
        for stand in 1..=stands {
            for shift in 0..=MAX_SHIFT + 1 {
                let file = [1, surveyor, stand, shift];
                let expected = plan::read(roster, &file);
                check_answer(&desk.load_plan(&file), &expected, &file);
            }
        }
    }
}

/// Whether the desk ranks two pairs as the reference does: the votes of the
/// plans that have one of them each.
fn check_ranks(random: &mut Random, roster: &Roster, desk: &Desk) {
    let pairs = roster.pairs().len();
    let [first, second] = [(); 2].map(|()| {
        let pair = roster.pairs()[random.below(pairs)];
        [1, pair.surveyor, pair.stand, pair.shift]
    });
    let (Ok(mine), Ok(theirs)) = (plan::read(roster, &first), plan::read(roster, &second)) else {
        return;
    };
    let votes = compared(desk, &first, &second).outcome.expect("accepted");
    assert_eq!(votes.first, votes::plan_vote(roster, &mine, &theirs));
    assert_eq!(votes.second, votes::plan_vote(roster, &theirs, &mine));
}

#[test]
fn pairs_with_their_ranks() {
    let mut random = Random::new(4);
    for _ in 0..30_000 {
        let mut shape = shape(&mut random);
        // the reference tries all pairings here, so quotas are small
        shape.quotas = [0..=3, 0..=3];
        let roster = random::roster(&mut random, &shape);
        let mut desk = desk_with(&roster::write(&roster)).expect("accepted");
        check_pairs(&roster, &mut desk);
        for _ in 0..roster.pairs().len() {
            check_ranks(&mut random, &roster, &desk);
        }
    }
}

#[test]
fn random_and_damaged_plans() {
    let mut random = Random::new(5);
    let mut met = Met::default();
    for _ in 0..60_000 {
        let mut shape = shape(&mut random);
        shape.quotas = [0..=3, 0..=3];
        let roster = random::roster(&mut random, &shape);
        let bytes = roster::write(&roster);
        let fine = plan::write(&roster, &random::plan(&mut random, &roster, 90));
        for _ in 0..8 {
            let mut file = fine.clone();
            for _ in 0..random.below(3) {
                damage(&mut random, &mut file);
            }
            check_plan(&mut random, &mut met, &roster, &bytes, &file);
        }
    }
    met.require(&[0, 1, 2, 9, 10, 11, 12, 14, 15], 500);
}

/// Loads and writes one plan file on both sides. A refused one is not held.
fn check_plan(random: &mut Random, met: &mut Met, roster: &Roster, bytes: &[u8], file: &[u8]) {
    let expected = plan::read(roster, file);
    let mut desk = desk_with(bytes).expect("accepted");
    let answer = desk.load_plan(file);
    check_answer(&answer, &expected, file);
    met.count(number(&answer));
    let before = {
        let length = length(random, planner::PLAN_BYTES);
        junk(random, length)
    };
    let mut out = before.clone();
    let written = desk.write_plan(&mut out);
    met.count(number(&written));
    let expected = match expected {
        Err(_) => Err(14),
        Ok(_) if before.len() < planner::PLAN_BYTES => Err(15),
        Ok(plan) => Ok(plan::write(roster, &plan)),
    };
    check_written(written, expected, &before, &out);
}

#[test]
fn a_refused_roster_comes_before_its_plan() {
    let mut out = [0; planner::PLAN_BYTES];
    for (roster, refusal) in [(&[1u8, 9][..], 3), (&[33], 2), (&[], 1)] {
        assert_eq!(number(&desk_with_plan(roster, &[])), refusal);
        let mut desk = Desk::open();
        assert_eq!(number(&desk.load_roster(roster)), refusal);
        assert_eq!(number(&desk.load_plan(&[])), 13);
        assert_eq!(number(&desk.write_plan(&mut out)), 13);
        assert_eq!(
            number(&desk.write_plan(&mut out[..planner::PLAN_BYTES - 1])),
            13
        );
    }
}
