//! The rules with and without rule 7 against brute force: the strongly popular
//! plan, counted among all plans within the quotas by all votes. The numbers are
//! those of docs/THEORY.md, "Where the report is short".

mod report;

use std::ops::RangeInclusive;

use reference::every::{self, Size};
use reference::plan::Plan;
use reference::random::{self, Random, Shape};
use reference::reduction::State;
use reference::roster::{write, Roster};
use reference::rules::RULES;
use reference::tables::Tables;
use report::{claims, reduce_by};

/// How many rosters there were, how many have a strongly popular plan, and of
/// these, how many have pairs left when rules 1 to 6 name none.
#[derive(Debug, Default, PartialEq, Eq)]
struct Scan {
    rosters: u64,
    strong: u64,
    missed: u64,
}

impl Scan {
    /// With a strong plan the seven rules leave no pair and fix that plan; so do
    /// the first six where they leave none.
    fn check(&mut self, tables: &mut Tables, roster: &Roster) {
        self.rosters += 1;
        let contest = tables.contest(roster);
        let strong = contest.strongly_popular();
        assert!(strong.len() <= 1, "{:?}", write(roster));
        let Some(strong) = strong.first().map(|&plan| &contest.plans()[plan]) else {
            return;
        };
        self.strong += 1;
        let mut state = State::new(roster);
        reduce_by(&mut state, claims());
        if fixes_all(&state, strong) {
            return;
        }
        assert!(!state.remaining().is_empty(), "{:?}", write(roster));
        self.missed += 1;
        reduce_by(&mut state, &RULES);
        assert!(fixes_all(&state, strong), "{:?}", write(roster));
    }
}

/// No pair is left, and the fixed ones are this plan.
fn fixes_all(state: &State, plan: &Plan) -> bool {
    state.remaining().is_empty() && state.fixed() == *plan
}

fn scan(rosters: u64, strong: u64, missed: u64) -> Scan {
    Scan {
        rosters,
        strong,
        missed,
    }
}

const ONE: [RangeInclusive<u8>; 2] = [1..=1, 1..=1];

/// Every roster of a size: the counts of both sides, shifts and quotas.
fn every(counts: [u8; 2], shifts: u8, quotas: [RangeInclusive<u8>; 2]) -> Scan {
    let mut tables = Tables::default();
    let mut seen = Scan::default();
    let size = Size {
        counts,
        shifts,
        quotas,
        rosters: 0,
    };
    every::for_each_roster(&size, |roster| seen.check(&mut tables, roster));
    println!("{counts:?}, shifts {shifts}: {seen:?}");
    seen
}

/// Random rosters of some shapes, so many of each.
fn random(number: u32, shapes: &[Shape]) -> Scan {
    let mut tables = Tables::default();
    let mut seen = Scan::default();
    for (seed, shape) in (51..).zip(shapes) {
        let mut random = Random::new(seed);
        for _ in 0..number {
            let roster = random::roster(&mut random, shape);
            seen.check(&mut tables, &roster);
        }
    }
    println!("random: {seen:?}");
    seen
}

#[test]
fn every_small_roster() {
    let seen = [
        every([2, 2], 1, [0..=3, 0..=3]),
        every([2, 3], 1, [1..=2, 1..=2]),
        every([2, 1], 2, [0..=2, 0..=4]),
        every([1, 2], 2, [0..=4, 0..=2]),
    ];
    let known = [
        scan(57_088, 54_978, 16),
        scan(324_224, 262_958, 1_632),
        scan(19_665, 15_233, 0),
        scan(40_545, 32_345, 16),
    ];
    assert_eq!(seen, known);
}

#[test]
fn random_rosters() {
    let seen = random(10_000, &random::small_shapes());
    assert_eq!(seen, scan(130_000, 58_473, 288));
}

/// With all quotas one the first six rules miss no strong plan.
#[test]
fn every_small_roster_with_all_quotas_one() {
    let seen = [
        every([2, 2], 1, ONE),
        every([2, 3], 1, ONE),
        every([3, 2], 1, ONE),
        every([4, 2], 1, ONE),
        every([2, 1], 3, ONE),
    ];
    let known = [
        scan(223, 179, 0),
        scan(10_132, 7_951, 0),
        scan(5_375, 3_469, 0),
        scan(188_717, 129_405, 0),
        scan(99_490, 35_653, 0),
    ];
    assert_eq!(seen, known);
}

#[test]
fn random_rosters_with_all_quotas_one() {
    let shape = |most, shifts, pairs| Shape {
        counts: [2..=most, 2..=most],
        quotas: ONE,
        shifts,
        pairs,
        ties: 80,
        opposed: 90,
    };
    let seen = random(20_000, &[shape(5, 1, 60), shape(3, 2, 50)]);
    assert_eq!(seen, scan(40_000, 15_605, 0));
}
