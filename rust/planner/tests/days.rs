//! The held plan spread over days, against the request's words: plans to quota 8,
//! entries in three shifts, all small plans, buffers below their size and buffers
//! that are not empty. Which spreading it is, is open.

mod common;
mod lent;

use common::{desk_with, desk_with_plan, junk, number, RANKED};
use lent::check_days;
use planner::{Desk, Entry, DAY_BYTES};
use reference::days::{busiest, days_used, fewest_days};
use reference::limits::{MAX_PLAN_PAIRS, MAX_QUOTA};
use reference::plan::{self, Plan};
use reference::random::{self, any_shape, Random, Shape};
use reference::roster::{self, List, Node, Pair, Roster, SIDES};

/// The days of a plan, and whether they are a sheet; nothing else is written, and
/// the desk is as it was.
fn days_of(random: &mut Random, roster: &Roster, plan: &Plan) -> Vec<u8> {
    let files = [roster::write(roster), plan::write(roster, plan)];
    let desk = desk_with_plan(&files[0], &files[1]).expect("accepted");
    let before = {
        let length = DAY_BYTES + random.below(3);
        junk(random, length)
    };
    let mut out = before.clone();
    let count = desk.spread(&mut out).expect("a plan is held");
    check_days(roster, plan, &before, &out, count);
    let days = out[..count].to_vec();
    check_sheet(roster, plan, &desk, &days);
    days
}

/// Whether the desk's sheet has the plan's entries on these days.
fn check_sheet(roster: &Roster, plan: &Plan, desk: &Desk, days: &[u8]) {
    let sheet = desk.sheet().expect("a plan is held");
    assert_eq!(sheet.days.len(), days_used(days));
    for (day, entries) in (1..).zip(&sheet.days) {
        let on_day = plan
            .pairs(roster)
            .zip(days)
            .filter(|(_, &other)| other == day);
        let expected: Vec<Entry> = on_day.map(|(pair, _)| entry(pair)).collect();
        assert_eq!(*entries, expected);
    }
}

fn entry(pair: Pair) -> Entry {
    Entry {
        surveyor: pair.surveyor,
        stand: pair.stand,
        shift: pair.shift,
    }
}

#[test]
fn random_plans() {
    let mut random = Random::new(2_090);
    let mut met = [0; 1 + MAX_QUOTA as usize];
    for _ in 0..20_000 {
        let shape = any_shape(&mut random);
        let roster = random::roster(&mut random, &shape);
        let plan = match random.below(3) {
            0 => random::plan(&mut random, &roster, 60),
            _ => random::maximal_plan(&mut random, &roster),
        };
        let days = days_of(&mut random, &roster, &plan);
        met[days_used(&days)] += 1;
    }
    println!("plans by their days: {met:?}");
    assert!(met.iter().all(|&count| count >= 100));
}

/// Few nodes with many places, over three shifts.
#[test]
fn parallel_entries() {
    let mut random = Random::new(2_091);
    let mut most = [0; 4];
    for _ in 0..10_000 {
        let nodes = random.within(&(1..=8));
        let shape = Shape {
            counts: [1..=nodes, 1..=nodes],
            quotas: [2..=8, 2..=8],
            shifts: 3,
            pairs: 100,
            ties: 0,
            opposed: 0,
        };
        let roster = random::roster(&mut random, &shape);
        let plan = random::maximal_plan(&mut random, &roster);
        days_of(&mut random, &roster, &plan);
        most[most_parallel(&plan.pairs(&roster).collect::<Vec<Pair>>())] += 1;
    }
    println!("plans by the most entries of one surveyor and one stand: {most:?}");
    assert!(most[2] >= 500 && most[3] >= 500);
}

/// How many entries one surveyor and one stand have at most.
fn most_parallel(pairs: &[Pair]) -> usize {
    let ends = |pair: &Pair| (pair.surveyor, pair.stand);
    let same = |one| pairs.iter().filter(move |other| ends(other) == ends(one));
    let counts = pairs.iter().map(|one| same(one).count());
    counts.max().unwrap_or(0)
}

/// The fullest plans: 64 entries, with eight nodes of quota 8 on one side or on
/// both, or with quota 2 at all.
#[test]
fn the_fullest_plans() {
    let mut random = Random::new(2_092);
    let (eight, all) = ((8, 8), (32, 2));
    for (surveyors, stands) in [(eight, eight), (eight, all), (all, eight), (all, all)] {
        let most = surveyors.1.max(stands.1);
        let shape = Shape {
            counts: [surveyors.0..=surveyors.0, stands.0..=stands.0],
            quotas: [surveyors.1..=surveyors.1, stands.1..=stands.1],
            ..random::longest_shape(0, 0)
        };
        for _ in 0..20 {
            let roster = random::roster(&mut random, &shape);
            let plan = random::plan_of(&mut random, &roster, MAX_PLAN_PAIRS);
            let days = days_of(&mut random, &roster, &plan);
            assert_eq!(
                (days.len(), days_used(&days)),
                (DAY_BYTES, usize::from(most))
            );
        }
    }
}

/// A roster of nodes that have room for all of these pairs.
fn roster_of(counts: [u8; 2], pairs: &[Pair]) -> Roster {
    let [surveyors, stands] = SIDES.map(|side| {
        let node = |number| {
            let own = pairs.iter().filter(|pair| pair.end(side) == number);
            Node {
                quota: MAX_QUOTA,
                list: List {
                    strict: own.map(|pair| pair.entry(side)).collect(),
                    tied: Vec::new(),
                },
            }
        };
        (1..=counts[side as usize]).map(node).collect()
    });
    Roster::new(surveyors, stands).expect("both sides list the same pairs")
}

/// Every set of up to `most` pairs of so many nodes in these shifts, as a plan; its
/// days are the fewest that any spreading uses.
fn check_all(counts: [u8; 2], shifts: &[u8], most: u32) -> usize {
    let mut random = Random::new(2_093);
    let mut all = Vec::new();
    for surveyor in 1..=counts[0] {
        for stand in 1..=counts[1] {
            all.extend(shifts.iter().map(|&shift| Pair {
                surveyor,
                stand,
                shift,
            }));
        }
    }
    let mut plans = 0;
    for set in 0..1u32 << all.len() {
        if set.count_ones() > most {
            continue;
        }
        let chosen = (0..all.len()).filter(|place| set >> place & 1 == 1);
        let chosen: Vec<Pair> = chosen.map(|place| all[place]).collect();
        let roster = roster_of(counts, &chosen);
        let days = days_of(&mut random, &roster, &(0..chosen.len()).collect());
        assert_eq!(days_used(&days), fewest_days(&chosen), "{chosen:?}");
        plans += 1;
    }
    plans
}

#[test]
fn small_plans_have_the_fewest_days() {
    let plans = [
        check_all([1, 1], &[1, 2, 3], 3),
        check_all([2, 2], &[1, 2, 3], 8),
        check_all([3, 3], &[1], 9),
        check_all([3, 3], &[1, 3], 5),
        check_all([2, 4], &[2], 8),
        check_all([4, 4], &[1], 6),
    ];
    println!("plans: {plans:?}");
    assert_eq!(
        plans.iter().sum::<usize>(),
        8 + 3_797 + 512 + 12_616 + 256 + 14_893
    );
}

/// Pairs 1-2, 1-3, 2-1, 2-3: the first day free at both ends, entry by entry, would
/// be 1, 2, 1 and then 3, and two days are enough.
#[test]
fn the_first_day_free_at_both_ends_is_not_enough() {
    let pairs = [(1, 2), (1, 3), (2, 1), (2, 3)].map(|(surveyor, stand)| Pair {
        surveyor,
        stand,
        shift: 1,
    });
    let mut first_free: Vec<u8> = Vec::new();
    for (place, one) in pairs.iter().enumerate() {
        let meets = |other: &Pair| other.surveyor == one.surveyor || other.stand == one.stand;
        let taken =
            |day: &u8| (0..place).any(|other| first_free[other] == *day && meets(&pairs[other]));
        first_free.push((1..).find(|day| !taken(day)).expect("a free day"));
    }
    assert_eq!(first_free, [1, 2, 1, 3]);
    let roster = roster_of([2, 3], &pairs);
    let days = days_of(&mut Random::new(2_094), &roster, &(0..4).collect());
    assert_eq!((days_used(&days), busiest(&pairs)), (2, 2));
}

#[test]
fn refusals() {
    let mut out = [7; DAY_BYTES];
    assert_eq!(number(&Desk::open().spread(&mut out)), 13);
    assert_eq!(number(&Desk::open().spread(&mut out[..0])), 13);
    let held = desk_with(&RANKED).expect("accepted");
    assert_eq!(number(&held.spread(&mut out)), 14);
    assert_eq!(number(&held.spread(&mut out[..DAY_BYTES - 1])), 14);
    assert_eq!(number(&held.sheet()), 14);
    let held = desk_with_plan(&RANKED, &[1, 1, 1, 1]).expect("accepted");
    for length in 0..DAY_BYTES {
        assert_eq!(number(&held.spread(&mut out[..length])), 15);
    }
    assert_eq!(out, [7; DAY_BYTES]);
    assert_eq!(held.spread(&mut out), Ok(1));
    assert_eq!((out[0], &out[1..]), (1, &[7; DAY_BYTES - 1][..]));
    // the empty plan has no days
    let held = desk_with_plan(&RANKED, &[0]).expect("accepted");
    assert_eq!(held.spread(&mut [7; DAY_BYTES]), Ok(0));
    assert_eq!(
        held.sheet().expect("a plan is held").days,
        Vec::<Vec<Entry>>::new()
    );
}
