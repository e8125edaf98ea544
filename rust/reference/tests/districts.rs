//! Two districts joined: stated cases, the order of the refusals, the sums at their
//! limits, the buffer; and by brute force that the strongly popular plans of the
//! joined roster are those of both side by side, and that votes add.

mod common;

use common::{roster, without_pairs, Bytes, P1, P3, P4, P6, SHIFTS, SHIFTS_TIED};
use reference::districts::{join, pairs_beside, side_by_side};
use reference::every::{for_each_roster, FOR_PAIRS};
use reference::limits::MAX_ROSTER_BYTES;
use reference::plan::Plan;
use reference::random::{self, Random};
use reference::refusal::Refusal;
use reference::roster::{read, write, Pair, Roster};
use reference::tables::Tables;
use reference::votes::plan_vote;

/// The bytes of two files joined, or the refusal's number. Behind them the buffer
/// keeps its bytes.
fn joined(first: &[u8], second: &[u8]) -> Result<Vec<u8>, u8> {
    let mut out = [7; MAX_ROSTER_BYTES];
    let written = match join(first, second, &mut out) {
        Ok(length) => Ok(out[..length].to_vec()),
        Err(refusal) => Err(refusal.number()),
    };
    let length = written.as_ref().map_or(0, Vec::len);
    assert!(out[length..].iter().all(|&byte| byte == 7));
    written
}

#[test]
fn stated_cases() {
    // nobody beside P3, on either side
    assert_eq!(joined(P1, P3), Ok(P3.to_vec()));
    assert_eq!(joined(P3, P1), Ok(P3.to_vec()));
    // two surveyors and a stand, then a surveyor and a stand in shifts 3 and 1
    let both: Bytes = &[
        3, 1, 1, 2, 2, 1, 2, // counts and quotas
        4, 0, 1, 1, 1, 1, 1, 1, 2, 2, 3, 2, 1, // surveyors' lists
        4, 0, 2, 0, 1, 1, 2, 1, 1, 1, 3, 1, 3, 3, // stands' lists
    ];
    assert_eq!(joined(P3, SHIFTS), Ok(both.to_vec()));
    let turned: Bytes = &[
        3, 2, 1, 1, 2, 2, 1, // the same with the other one in front
        4, 0, 2, 1, 3, 1, 1, 1, 2, 1, 1, 2, 1, //
        4, 0, 1, 1, 1, 1, 1, 3, 2, 0, 2, 1, 3, 1,
    ];
    assert_eq!(joined(SHIFTS, P3), Ok(turned.to_vec()));
    // a tie that is moved, shifts in it
    let tied = joined(P6, SHIFTS_TIED).expect("accepted");
    assert_eq!(tied[tied.len() - 8..], [0, 3, 3, 1, 3, 2, 4, 1]);
}

#[test]
fn the_first_file_is_checked_in_full_before_the_second() {
    let (one_side, behind): (Bytes, Bytes) = (
        &[1, 0, 1, 1, 1, 0, 1, 1, 1, 0, 0, 0, 0],
        &[0, 0, 0, 0, 0, 0, 1],
    );
    let cases: [(&str, Bytes, Bytes, u8); 8] = [
        ("nothing at all", &[], &[], 1),
        ("the second is cut short", P3, &[1], 1),
        ("one side only, before a cut", one_side, &[], 8),
        ("a cut, before one side only", &[], one_side, 1),
        ("a byte behind, before quota 9", behind, &[1, 9], 9),
        ("quota 9, before a byte behind", &[1, 9], behind, 3),
        ("a byte behind the second", P3, behind, 9),
        ("the second on one side only", P3, one_side, 8),
    ];
    for (name, first, second, number) in cases {
        assert_eq!(joined(first, second), Err(number), "{name}");
    }
}

/// Rosters without pairs whose quotas, for each side, are these.
fn counted(first: [&[u8]; 2], second: [&[u8]; 2]) -> Result<usize, u8> {
    let [first, second] = [first, second].map(|[one, other]| without_pairs(one, other));
    joined(&first, &second).map(|joined| joined.len())
}

#[test]
fn sums_at_their_limits() {
    // 6 bytes of counts, 2 for each surveyor and 3 for each stand
    let taken = |surveyors: usize, stands: usize| Ok(6 + 2 * surveyors + 3 * stands);
    let (none, many): (&[u8], [u8; 31]) = (&[], [0; 31]);
    assert_eq!(counted([&many, &many], [&[0], &[0]]), taken(32, 32));
    assert_eq!(counted([&many, none], [&[0, 0], none]), Err(2));
    assert_eq!(counted([none, &many], [none, &[0, 0]]), Err(2));
    let full: &[u8] = &[8; 7];
    assert_eq!(counted([full, full], [&[8], &[8]]), taken(8, 8));
    assert_eq!(counted([full, none], [&[8, 1], none]), Err(3));
    assert_eq!(counted([none, full], [none, &[8, 1]]), Err(3));
}

#[test]
fn sums_that_meet_2_come_before_those_that_meet_3() {
    let (none, many, full): (&[u8], [u8; 31], &[u8]) = (&[], [0; 31], &[8; 7]);
    // 33 stands, and surveyors' quotas of 65; and the other way round
    assert_eq!(counted([full, &many], [&[8, 1], &[0, 0]]), Err(2));
    assert_eq!(counted([&many, full], [&[0, 0], &[8, 1]]), Err(2));
    // 33 surveyors whose quotas are 65
    assert_eq!(counted([&[2; 31], none], [&[2, 1], none]), Err(2));
    // a file's own refusal comes before the sums'
    let many = without_pairs(&[0; 32], &[]);
    assert_eq!(joined(&many, &[1, 9]), Err(3));
    assert_eq!(joined(&many, &[1]), Err(1));
}

#[test]
fn a_buffer_below_its_size_is_15_before_a_file() {
    for files in [[P3, P3], [&[], P3], [P3, &[]]] {
        let mut out = [7; MAX_ROSTER_BYTES - 1];
        let answer = join(files[0], files[1], &mut out);
        assert_eq!(answer, Err(Refusal::BufferTooSmall));
        assert!(out.iter().all(|&byte| byte == 7));
    }
}

/// Whether the joined roster is accepted, and its strongly popular plans are those
/// of both side by side. Tells how many of the two have one.
fn check(tables: &mut Tables, rosters: [&Roster; 2]) -> usize {
    let both = side_by_side(rosters[0], rosters[1]);
    let file = joined(&write(rosters[0]), &write(rosters[1]));
    assert_eq!(file, Ok(write(&both)));
    assert_eq!(read(&write(&both)).as_ref(), Ok(&both));
    let [first, second] = rosters.map(|roster| strong(tables, roster));
    let beside: Vec<Vec<Pair>> = first
        .iter()
        .flat_map(|one| second.iter().map(move |other| [one, other]))
        .map(|plans| pairs_beside(rosters, plans))
        .collect();
    let found: Vec<Vec<Pair>> = strong(tables, &both)
        .iter()
        .map(|plan| plan.pairs(&both).collect())
        .collect();
    assert_eq!(found, beside, "{:?}", rosters.map(write));
    first.len() + second.len()
}

fn strong(tables: &mut Tables, roster: &Roster) -> Vec<Plan> {
    let contest = tables.contest(roster);
    let strong = contest.strongly_popular().into_iter();
    strong.map(|plan| contest.plans()[plan].clone()).collect()
}

#[test]
fn every_pair_of_small_rosters() {
    let mut rosters = Vec::new();
    for size in &FOR_PAIRS {
        let before = rosters.len();
        for_each_roster(size, |roster| rosters.push(roster.clone()));
        assert_eq!((rosters.len() - before) as u64, size.rosters);
    }
    let mut tables = Tables::default();
    let mut met = [0u32; 3];
    for first in &rosters {
        for second in &rosters {
            met[check(&mut tables, [first, second])] += 1;
        }
    }
    println!("neither, one, both of two rosters have a strong plan: {met:?}");
    assert!(met.iter().all(|&count| count >= 500), "{met:?}");
}

#[test]
fn random_rosters() {
    let mut random = Random::new(210);
    let mut tables = Tables::default();
    let mut met = [0u32; 3];
    for _ in 0..3_000 {
        let [first, second] = [(); 2].map(|()| small(&mut random));
        met[check(&mut tables, [&first, &second])] += 1;
    }
    println!("neither, one, both of two rosters have a strong plan: {met:?}");
    assert!(met.iter().all(|&count| count >= 50), "{met:?}");
}

/// A small roster with so few pairs that all plans of two can be tried.
fn small(random: &mut Random) -> Roster {
    loop {
        let shape = random::small_shape(random);
        let roster = random::roster(random, &shape);
        if roster.pairs().len() <= 6 {
            return roster;
        }
    }
}

#[test]
fn votes_add() {
    let mut random = Random::new(211);
    let mut below = 0;
    for _ in 0..3_000 {
        let rosters = [(); 2].map(|()| small(&mut random));
        let both = side_by_side(&rosters[0], &rosters[1]);
        let plans = [(); 2]
            .map(|()| [0, 1].map(|place: usize| random::plan(&mut random, &rosters[place], 80)));
        let beside = plans.each_ref().map(|[one, other]| {
            let pairs = pairs_beside([&rosters[0], &rosters[1]], [one, other]);
            let index = |pair| both.index_of(pair).expect("a pair of the joined roster");
            pairs.into_iter().map(index).collect::<Plan>()
        });
        let votes =
            [0, 1].map(|place| plan_vote(&rosters[place], &plans[0][place], &plans[1][place]));
        let vote = plan_vote(&both, &beside[0], &beside[1]);
        assert_eq!(vote, votes[0] + votes[1]);
        below += u32::from(vote < 0);
    }
    println!("below zero {below} times");
    assert!(below >= 100);
}

#[test]
fn strong_plans_beside_each_other_in_bytes() {
    // P3's plan 1-1 twice, and none beside P4's none
    let mut tables = Tables::default();
    let both = side_by_side(&roster(P3), &roster(P3));
    let plan = &strong(&mut tables, &both)[0];
    let file = reference::plan::write(&both, plan);
    assert_eq!(file, [2, 1, 1, 1, 3, 2, 1]);
    assert!(strong(&mut tables, &side_by_side(&roster(P3), &roster(P4))).is_empty());
}
