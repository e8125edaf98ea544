//! Calls on a desk, one after another, against the reference: every answer,
//! every byte lent, and the desk itself, which only an accepted load, proposal,
//! commit or change changes. Now and then the desk's own bytes are damaged.

mod calls;
mod change;
mod common;
mod found;
mod lent;
mod taken;

use calls::winner;
use change::Change;
use common::{check_written, damage, held_by, junk, length, number, season_plan, shape, Met};
use found::check_rival;
use lent::{check_days, check_ranks, only_front, ranges_file, Buffers, Pairings, SIZES};
use planner::{Desk, Holding, Verdict};
use reference::desk::Desk as Held;
use reference::limits::PAIR_FIELD;
use reference::plan::{self, Plan};
use reference::random::{self, Random};
use reference::refusal::Refusal;
use reference::roster::{self, Roster};
use reference::{blocking, compare, fast, pairings};
use taken::Call;

/// A plan file: of the held roster if there is one, damaged now and then.
fn plan_file(random: &mut Random, held: &Held) -> Vec<u8> {
    let mut file = match held.roster() {
        Ok(roster) => plan::write(roster, &random::plan(random, roster, 80)),
        Err(_) => vec![0],
    };
    if random.chance(20) {
        damage(random, &mut file);
    }
    file
}

/// A buffer, below its size now and then.
fn buffer(random: &mut Random, size: usize) -> Vec<u8> {
    let length = if random.chance(15) {
        random.below(size)
    } else {
        size + random.below(3)
    };
    junk(random, length)
}

/// A roster file, damaged now and then.
fn roster_file(random: &mut Random) -> Vec<u8> {
    let mut shape = shape(random);
    shape.quotas = [0..=3, 0..=3];
    let mut file = roster::write(&random::roster(random, &shape));
    if random.chance(30) {
        damage(random, &mut file);
    }
    file
}

/// A call that can take something in.
fn take(random: &mut Random, desk: &mut Desk, held: &Held) -> u8 {
    let call = match random.below(8) {
        0 => Call::LoadRoster(roster_file(random)),
        1 | 2 => Call::LoadPlan(plan_file(random, held)),
        3 | 4 => Call::Propose(plan_file(random, held)),
        5 => Call::Commit,
        _ => Call::Change(Change::random(random, held)),
    };
    let answer = call.check(desk, || buffers(random));
    answer.err().unwrap_or(0)
}

/// Buffers for a change, one of them below its size now and then.
fn buffers(random: &mut Random) -> Buffers {
    let mut sizes = SIZES;
    if random.chance(15) {
        let place = random.below(SIZES.len());
        sizes[place] = random.below(SIZES[place]);
    }
    Buffers::new(random, sizes)
}

fn write_roster(random: &mut Random, desk: &Desk, held: &Held) -> u8 {
    let before = buffer(random, planner::ROSTER_BYTES);
    let mut out = before.clone();
    let answer = desk.write_roster(&mut out);
    let expected = match held.roster() {
        Err(refusal) => Err(refusal.number()),
        Ok(_) if before.len() < planner::ROSTER_BYTES => Err(15),
        Ok(roster) => Ok(roster::write(roster)),
    };
    check_written(answer, expected, &before, &out);
    number(&answer)
}

fn write_plan(random: &mut Random, desk: &Desk, held: &Held) -> u8 {
    let before = buffer(random, planner::PLAN_BYTES);
    let mut out = before.clone();
    let answer = desk.write_plan(&mut out);
    let expected = match held.roster_and_plan() {
        Err(refusal) => Err(refusal.number()),
        Ok(_) if before.len() < planner::PLAN_BYTES => Err(15),
        Ok((roster, plan)) => Ok(plan::write(roster, plan)),
    };
    check_written(answer, expected, &before, &out);
    number(&answer)
}

fn write_proposal(random: &mut Random, desk: &Desk, held: &Held) -> u8 {
    let before = buffer(random, planner::PLAN_BYTES);
    let mut out = before.clone();
    let answer = desk.write_proposal(&mut out);
    let proposal = held
        .proposal()
        .and_then(|open| Ok(plan::write(held.roster()?, open)));
    let expected = match proposal {
        Err(refusal) => Err(refusal.number()),
        Ok(_) if before.len() < planner::PLAN_BYTES => Err(15),
        Ok(bytes) => Ok(bytes),
    };
    check_written(answer, expected, &before, &out);
    number(&answer)
}

/// What is held, which is never refused.
fn holds(desk: &Desk, held: &Held) -> u8 {
    assert_eq!(desk.holds() as u8, held.holds());
    0
}

/// The days of the held plan.
fn spread(random: &mut Random, desk: &Desk, held: &Held) -> u8 {
    let before = buffer(random, planner::DAY_BYTES);
    let mut out = before.clone();
    let answer = desk.spread(&mut out);
    match held.roster_and_plan() {
        Ok((roster, plan)) if before.len() >= planner::DAY_BYTES => {
            let count = answer.expect("a plan is held");
            check_days(roster, plan, &before, &out, count);
        }
        held => {
            let expected = held.err().unwrap_or(Refusal::BufferTooSmall);
            assert_eq!((number(&answer), out), (expected.number(), before));
        }
    }
    number(&answer)
}

/// The least vote of two plan files over ranges of ranks.
fn least(random: &mut Random, desk: &Desk, held: &Held) -> u8 {
    let before = buffer(random, planner::RANK_BYTES);
    let [first, second] = [(); 2].map(|()| plan_file(random, held));
    let mut ranges = held
        .roster()
        .map_or(vec![1, 1], |roster| ranges_file(random, roster));
    if random.chance(40) {
        damage(random, &mut ranges);
    }
    let mut out = before.clone();
    let answer = desk.least(&first, &second, &ranges, &mut out);
    let (_, expected) = held
        .clone()
        .least(&first, &second, &ranges, &mut before.clone());
    match (&answer, &expected) {
        (Ok(least), Ok((vote, ranks))) => {
            assert_eq!((least.vote, least.ranks), (*vote, *ranks));
            let roster = held.roster().expect("a roster");
            check_ranks(
                roster,
                [&first, &second, &ranges],
                &before,
                &out,
                (*vote, *ranks),
            );
        }
        _ => {
            let expected = expected.err().map_or(0, |refusal| refusal.number());
            assert_eq!((number(&answer), out), (expected, before));
        }
    }
    number(&answer)
}

/// A plan file of an old season or a new one, turned one way or the other.
fn turn_plan(random: &mut Random, desk: &Desk, held: &Held) -> u8 {
    let file = match held.roster() {
        Ok(roster) => season_plan(random, roster),
        Err(_) => vec![0],
    };
    let before = buffer(random, planner::PLAN_BYTES);
    let [mut own, mut other] = [before.clone(), before];
    let (answer, (after, expected)) = if random.chance(50) {
        let answer = desk.plan_to_new(&file, &mut own);
        (answer, held.clone().plan_to_new(&file, &mut other))
    } else {
        let answer = desk.plan_to_old(&file, &mut own);
        (answer, held.clone().plan_to_old(&file, &mut other))
    };
    assert_eq!(number(&answer), expected.err().map_or(0, Refusal::number));
    assert_eq!((answer.ok(), own), (expected.ok(), other));
    assert_eq!(after, *held);
    number(&answer)
}

/// The verdict on the held plan against the reference's, and its rival by a
/// recount of the vote.
fn judge(random: &mut Random, desk: &Desk, held: &Held) -> u8 {
    let before = buffer(random, planner::PLAN_BYTES);
    let facing = buffer(random, planner::PAIRING_BYTES);
    let (mut rival, mut pairing) = (before.clone(), facing.clone());
    let answer = desk.judge(&mut rival, &mut pairing);
    let short = before.len() < planner::PLAN_BYTES || facing.len() < planner::PAIRING_BYTES;
    let expected = held.roster_and_plan().and_then(|held| match held {
        _ if short => Err(Refusal::BufferTooSmall),
        held => Ok(held),
    });
    let (roster, plan) = match expected {
        Ok(held) => held,
        Err(refusal) => {
            assert_eq!((number(&answer), rival), (refusal.number(), before));
            assert_eq!(pairing, facing);
            return refusal.number();
        }
    };
    let verdict = answer.expect("a plan is held");
    let theirs = fast_verdict(roster, plan);
    let (vote, length) = match verdict {
        Verdict::Strong => {
            assert_eq!((theirs, rival, pairing), (0, before, facing));
            return 0;
        }
        Verdict::Popular { vote, rival } => {
            assert_eq!((theirs, vote), (1, 0));
            (vote, rival)
        }
        Verdict::Beaten { vote, rival } => {
            assert_eq!(theirs, 2);
            assert!(vote < 0);
            (vote, rival)
        }
    };
    let rival = check_rival(roster, plan, &before, &rival, vote);
    assert_eq!(length, plan::write(roster, &rival).len());
    let faced = pairings::bytes_large(roster, plan, &rival);
    only_front(&facing, &pairing, &faced);
    0
}

/// The reference's verdict: 0 strong, 1 popular, 2 beaten.
fn fast_verdict(roster: &Roster, plan: &Plan) -> u8 {
    let instance = fast::roster::read(&roster::write(roster)).expect("accepted");
    let chosen = fast::plan::read(&instance, &plan::write(roster, plan)).expect("accepted");
    match fast::verdict::judge(&instance, &chosen) {
        fast::verdict::Verdict::Strong => 0,
        fast::verdict::Verdict::Popular(_) => 1,
        fast::verdict::Verdict::Beaten(_) => 2,
    }
}

fn compare_two(random: &mut Random, desk: &Desk, held: &Held) -> u8 {
    let first = plan_file(random, held);
    let second = plan_file(random, held);
    let sizes = [(); 2].map(|()| length(random, planner::PAIRING_BYTES));
    let before = Pairings::new(random, sizes);
    let [mut own, mut other] = [before.clone(), before];
    let answer = desk.compare(&first, &second, &mut own.forward, &mut own.back);
    let part = (answer.part.as_ptr(), answer.part.len());
    let (after, expected) = held.clone().compare(&first, &second, other.lend());
    assert_eq!((after, own), (held.clone(), other));
    match expected.outcome {
        Ok(votes) => {
            let ours = answer.outcome.expect("both accepted");
            assert_eq!(ours.first, votes.first_against_second);
            assert_eq!(ours.second, votes.second_against_first);
            assert_eq!(winner(ours.winner), votes.winner());
        }
        Err(refusal) => assert_eq!(number(&answer.outcome), refusal.number()),
    }
    let file = match expected.part.file {
        compare::File::First => &first,
        compare::File::Second => &second,
    };
    let theirs = &file[expected.part.range];
    assert_eq!(part, (theirs.as_ptr(), theirs.len()));
    number(&answer.outcome)
}

fn blocking_pair(desk: &Desk, held: &Held) -> u8 {
    let answer = desk.blocking();
    match held.roster_and_plan() {
        Err(refusal) => assert_eq!(number(&answer), refusal.number()),
        Ok((roster, plan)) => {
            let first = blocking::first_blocking_pair(roster, plan);
            let numbers = first.map(|pair| (pair.surveyor, pair.stand, pair.shift));
            assert_eq!(answer, Ok(numbers));
        }
    }
    number(&answer)
}

/// Any bytes may stand in a desk.
fn damage_desk(random: &mut Random, desk: &mut Desk) {
    let at = random.below(40);
    match random.below(10) {
        0 => desk.roster[at] = random.below(256) as u8,
        1 => desk.roster_len = random.below(60),
        2 => desk.roster_len = usize::MAX - random.below(3),
        3 => desk.plan[at] = random.below(256) as u8,
        4 => desk.plan_len = random.below(60),
        5 => desk.plan_len = usize::MAX - random.below(3),
        6 => desk.proposal[at] = random.below(256) as u8,
        7 => desk.proposal_len = random.below(60),
        8 => desk.proposal_len = usize::MAX - random.below(3),
        // what is left of the last proposal
        _ => desk.proposal_len = 1 + PAIR_FIELD * usize::from(desk.proposal[0]),
    }
}

#[test]
fn calls_one_after_another() {
    let mut random = Random::new(11);
    let mut met = Met::default();
    for _ in 0..60_000 {
        let mut desk = Desk::open();
        let mut held = Held::Nothing;
        for _ in 0..random.below(26) {
            let refusal = match random.below(18) {
                0 => write_roster(&mut random, &desk, &held),
                1 => write_plan(&mut random, &desk, &held),
                2 => judge(&mut random, &desk, &held),
                3 => compare_two(&mut random, &desk, &held),
                4 => blocking_pair(&desk, &held),
                5 => turn_plan(&mut random, &desk, &held),
                6 => spread(&mut random, &desk, &held),
                7 => least(&mut random, &desk, &held),
                8 => write_proposal(&mut random, &desk, &held),
                9 => holds(&desk, &held),
                _ => take(&mut random, &mut desk, &held),
            };
            met.count(refusal);
            if random.chance(4) {
                damage_desk(&mut random, &mut desk);
            }
            held = held_by(&desk);
        }
    }
    met.require(
        &[0, 1, 2, 9, 10, 11, 12, 13, 14, 15, 16, 18, 19, 20, 21],
        100,
    );
}

#[test]
fn a_new_desk_has_nothing_loaded() {
    let mut desk = Desk::open();
    let mut out = [0; planner::ROSTER_BYTES];
    assert_eq!(number(&desk.write_roster(&mut out)), 13);
    assert_eq!(number(&desk.write_plan(&mut out[..1])), 13);
    assert_eq!(number(&desk.write_proposal(&mut out[..1])), 13);
    assert_eq!(desk.holds(), Holding::Nothing);
    assert_eq!(number(&desk.spread(&mut out[..1])), 13);
    assert_eq!(number(&desk.judge(&mut out[..1], &mut [0])), 13);
    assert_eq!(number(&desk.blocking()), 13);
    assert_eq!(number(&desk.least(&[0], &[0], &[], &mut out[..1])), 13);
    let compared = desk.compare(&[0], &[0], &mut [], &mut []);
    assert_eq!(number(&compared.outcome), 13);
    assert_eq!(number(&desk.plan_to_new(&[0], &mut out[..1])), 13);
    assert_eq!(number(&desk.plan_to_old(&[0], &mut out[..1])), 13);
    assert_eq!(number(&desk.propose(&[0], &mut [], &mut [])), 13);
    assert_eq!(number(&desk.commit()), 13);
}
