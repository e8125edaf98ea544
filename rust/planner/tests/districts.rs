//! Two districts joined through the library, against the reference: every answer,
//! and every byte of the buffer, which is filled with junk first; and the finder on
//! the joined roster against the two finders.

mod common;

use std::fs;

use common::{district_files, found, junk, length, number, root, same_refusal, Met};
use common::{without_pairs, RANKED, TIED};
use planner::ROSTER_BYTES;
use reference::districts::join;
use reference::every::{for_each_roster, FOR_PAIRS};
use reference::random::{self, Random, Shape};
use reference::roster::{self, Roster};

/// Holds a call against the reference's, both lent such a buffer. Gives the joined
/// bytes, or the refusal's number.
fn check(first: &[u8], second: &[u8], before: &[u8]) -> Result<Vec<u8>, u8> {
    let [mut own, mut other] = [before.to_vec(), before.to_vec()];
    let ours = planner::join_districts(first, second, &mut own);
    match (ours, join(first, second, &mut other)) {
        (Ok(length), Ok(expected)) => {
            assert_eq!(length, expected, "{first:?} {second:?}");
            assert!(own == other, "{first:?} {second:?}");
            own.truncate(length);
            Ok(own)
        }
        (Err(ours), Err(theirs)) => {
            same_refusal(ours, theirs);
            assert!(own == before, "{first:?} {second:?}");
            Err(ours.number)
        }
        (ours, theirs) => panic!("{ours:?}, but {theirs:?}: {first:?} {second:?}"),
    }
}

/// A roster's file, and the plan that the finder hands back for it.
struct District {
    file: Vec<u8>,
    counts: [u8; 2],
    plan: Option<Vec<u8>>,
}

impl District {
    fn new(roster: &Roster) -> District {
        let file = roster::write(roster);
        let counts = roster::SIDES.map(|side| roster.nodes(side).len() as u8);
        let plan = found(&file);
        District { file, counts, plan }
    }

    /// The file of this one's plan and another's side by side, if both have one.
    fn plan_beside(&self, second: &District) -> Option<Vec<u8>> {
        let (own, other) = (self.plan.as_ref()?, second.plan.as_ref()?);
        let [surveyors, stands] = self.counts;
        let mut file = own.clone();
        file[0] += other[0];
        for pair in other[1..].chunks_exact(planner::PAIR_BYTES) {
            file.extend([pair[0] + surveyors, pair[1] + stands, pair[2]]);
        }
        Some(file)
    }
}

/// Joins two districts, and holds the finder on the joined roster against the two.
/// Tells how many of the two have a plan.
fn check_found(first: &District, second: &District, before: &[u8]) -> usize {
    let joined = check(&first.file, &second.file, before).expect("accepted");
    let expected = first.plan_beside(second);
    assert_eq!(found(&joined), expected, "{joined:?}");
    [first, second]
        .iter()
        .filter(|one| one.plan.is_some())
        .count()
}

#[test]
fn every_pair_of_small_rosters() {
    let mut districts = Vec::new();
    for size in &FOR_PAIRS {
        let before = districts.len();
        for_each_roster(size, |roster| districts.push(District::new(roster)));
        assert_eq!((districts.len() - before) as u64, size.rosters);
    }
    let before = junk(&mut Random::new(101), ROSTER_BYTES);
    let mut met = [0u32; 3];
    for first in &districts {
        for second in &districts {
            met[check_found(first, second, &before)] += 1;
        }
    }
    println!("neither, one, both of two rosters have a plan: {met:?}");
    assert!(met.iter().all(|&count| count >= 500), "{met:?}");
}

#[test]
fn districts_of_any_size() {
    let mut random = Random::new(102);
    let before = junk(&mut random, ROSTER_BYTES);
    let mut met = [0u32; 3];
    for _ in 0..3_000 {
        let [first, second] = [(); 2].map(|()| {
            let nodes = [1, 4, 16][random.below(3)];
            let shape = Shape {
                counts: [0..=nodes, 0..=nodes],
                quotas: [0..=2, 0..=2],
                opposed: [0, 90][random.below(2)],
                ..common::shape(&mut random)
            };
            District::new(&random::roster(&mut random, &shape))
        });
        met[check_found(&first, &second, &before)] += 1;
    }
    println!("neither, one, both of two rosters have a plan: {met:?}");
    assert!(met.iter().all(|&count| count >= 100), "{met:?}");
}

/// Two districts of 16 by 16 with full lists: together as long as a roster can be.
#[test]
fn the_longest() {
    let mut random = Random::new(103);
    let before = junk(&mut random, ROSTER_BYTES + 3);
    for _ in 0..50 {
        let [first, second] = [(); 2].map(|()| {
            let shape = Shape {
                counts: [16..=16, 16..=16],
                ..random::longest_shape(50, 20)
            };
            District::new(&random::roster(&mut random, &shape))
        });
        let joined = check(&first.file, &second.file, &before);
        assert_eq!(joined.map(|joined| joined.len()), Ok(ROSTER_BYTES));
        check_found(&first, &second, &before);
    }
}

#[test]
fn random_and_damaged_files() {
    let mut random = Random::new(104);
    let mut met = Met::default();
    for _ in 0..200_000 {
        let [first, second] = district_files(&mut random);
        let before = {
            let length = length(&mut random, ROSTER_BYTES);
            junk(&mut random, length)
        };
        met.count(check(&first, &second, &before).err().unwrap_or(0));
    }
    met.require(&[0, 1, 2, 3, 4, 5, 6, 7, 8, 9, 15, 18], 100);
}

/// A district with ties and shifts; its file.
const MIXED: [u8; 47] = [
    2, 1, 2, 3, 2, 0, 1, // quotas
    7, 0, 4, 1, 3, 1, 1, 2, 2, 3, 1, 3, 2, 1, 1, 2, 3, 3, // surveyors' lists
    7, 0, 1, 2, 1, 3, 1, 1, 2, 2, 0, 2, 1, 2, 2, 1, 1, 1, 2, 3, 1, 1, // stands' lists
];

#[test]
fn files_damaged_at_every_byte() {
    assert_eq!(planner::read_roster(&MIXED), Ok(()));
    let mut random = Random::new(105);
    let before = junk(&mut random, ROSTER_BYTES);
    let mut met = Met::default();
    let mut both = |damaged: &[u8]| {
        for [first, second] in [[damaged, &TIED], [&TIED, damaged]] {
            met.count(check(first, second, &before).err().unwrap_or(0));
        }
    };
    for place in 0..=MIXED.len() {
        both(&MIXED[..place]);
        let mut longer = MIXED.to_vec();
        longer.insert(place, 1);
        both(&longer);
    }
    for place in 0..MIXED.len() {
        for byte in 0..=255 {
            let mut damaged = MIXED.to_vec();
            damaged[place] = byte;
            both(&damaged);
        }
    }
    met.require(&[0, 1, 2, 3, 4, 5, 6, 7, 8, 18], 10);
    met.require(&[9], 2);
}

/// A file for each refusal that a roster can meet.
fn refused_files() -> Vec<(u8, Vec<u8>)> {
    let files: [(u8, &[u8]); 10] = [
        (1, &[1, 1, 1]),
        (2, &[33]),
        (3, &[1, 9]),
        (4, &[1, 1, 1, 1, 1, 0, 1, 2, 1]),
        (18, &[1, 1, 1, 1, 1, 0, 1, 1, 4]),
        (5, &[1, 1, 1, 1, 2, 0, 2, 1, 1, 1, 1]),
        (
            6,
            &[1, 1, 1, 1, 2, 0, 2, 1, 1, 1, 2, 2, 0, 0, 2, 1, 2, 1, 1],
        ),
        (7, &[1, 1, 1, 1, 2, 0, 1, 1, 1]),
        (9, &[0, 0, 0, 0, 0, 0, 0]),
        (8, &[1, 1, 1, 1, 1, 0, 1, 1, 1, 0, 0, 0, 0]),
    ];
    files.map(|(number, file)| (number, file.to_vec())).to_vec()
}

#[test]
fn the_first_file_is_checked_in_full_before_the_second() {
    let before = junk(&mut Random::new(106), ROSTER_BYTES);
    // accepted, but too large for any other beside it
    let large = without_pairs([&[2; 32], &[2; 32]]);
    for (number, file) in refused_files() {
        assert_eq!(check(&file, &large, &before), Err(number));
        assert_eq!(check(&large, &file, &before), Err(number));
        for (_, other) in refused_files() {
            assert_eq!(check(&file, &other, &before), Err(number));
        }
    }
}

#[test]
fn sums_at_their_limits() {
    let before = junk(&mut Random::new(107), ROSTER_BYTES);
    let sums = |first, second| check(&without_pairs(first), &without_pairs(second), &before);
    let taken = |joined: Result<Vec<u8>, u8>, quotas: [&[u8]; 2]| {
        assert_eq!(joined, Ok(without_pairs(quotas)));
    };
    let none: &[u8] = &[];
    let (many, full): (&[u8], &[u8]) = (&[0; 31], &[8; 7]);
    // surveyors and stands: 32, and 33
    taken(sums([many, none], [&[0], none]), [&[0; 32], none]);
    assert_eq!(sums([many, none], [&[0, 0], none]), Err(2));
    taken(sums([none, many], [none, &[0]]), [none, &[0; 32]]);
    assert_eq!(sums([none, many], [none, &[0, 0]]), Err(2));
    // quotas of each side: 64, and 65
    taken(sums([full, none], [&[8], none]), [&[8; 8], none]);
    assert_eq!(sums([full, none], [&[8, 1], none]), Err(3));
    taken(sums([none, full], [none, &[8]]), [none, &[8; 8]]);
    assert_eq!(sums([none, full], [none, &[8, 1]]), Err(3));
    // all four at once
    let (twos, two): (&[u8], &[u8]) = (&[2; 31], &[2]);
    taken(sums([twos, twos], [two, two]), [&[2; 32], &[2; 32]]);
    // every split of 32 and of 33
    for front in 0..=32 {
        let (ones, back) = (&[1; 32][..front], &[1; 33][front..]);
        taken(sums([ones, ones], [&back[1..], &back[1..]]), [&[1; 32]; 2]);
        assert_eq!(sums([ones, none], [back, none]), Err(2));
        assert_eq!(sums([none, ones], [none, back]), Err(2));
    }
}

#[test]
fn sums_that_meet_2_come_before_those_that_meet_3() {
    let before = junk(&mut Random::new(108), ROSTER_BYTES);
    let sums = |first, second| check(&without_pairs(first), &without_pairs(second), &before);
    let (many, full): (&[u8], &[u8]) = (&[0; 31], &[8; 7]);
    // 33 stands, and surveyors' quotas of 65; the same the other way round
    assert_eq!(sums([full, many], [&[8, 1], &[0, 0]]), Err(2));
    assert_eq!(sums([many, full], [&[0, 0], &[8, 1]]), Err(2));
    // 32 stands are in order, so it is the quotas
    assert_eq!(sums([full, many], [&[8, 1], &[0]]), Err(3));
    assert_eq!(sums([many, full], [&[0], &[8, 1]]), Err(3));
    // both on one side
    assert_eq!(sums([&[2; 31], &[]], [&[2, 2], &[]]), Err(2));
    assert_eq!(sums([&[], &[2; 31]], [&[], &[2, 2]]), Err(2));
}

#[test]
fn ties_and_shifts_are_moved() {
    let before = junk(&mut Random::new(109), ROSTER_BYTES);
    let joined = check(&RANKED, &MIXED, &before).expect("accepted");
    let expected = [
        4, 1, 1, 1, 2, 4, 1, 2, 0, 1, // quotas
        9, 0, 1, 1, 1, 1, 1, 1, // RANKED's surveyors
        4, 2, 3, 2, 1, 3, 2, 4, 1, 3, 3, 1, 2, 2, 4, 3, // MIXED's, stands up by 1
        9, 0, 2, 0, 1, 1, 2, 1, // RANKED's stand
        1, 2, 3, 3, 3, 1, 4, 2, 0, 2, 3, 2, 4, 1, 1, 1, 4, 3, 3, 1, // surveyors up by 2
    ];
    assert_eq!(joined, expected);
}

#[test]
fn samples_joined() {
    let [north, south, both] = ["north", "south", "north-and-south"]
        .map(|name| fs::read(root().join(format!("samples/{name}.roster"))).expect("a sample"));
    let before = junk(&mut Random::new(110), ROSTER_BYTES);
    assert_eq!(check(&north, &south, &before), Ok(both));
}

#[test]
fn a_buffer_one_below_its_size() {
    let mut out = [7; ROSTER_BYTES];
    for [first, second] in [[&RANKED[..], &TIED], [&[], &[]], [&[33], &[]]] {
        let answer = planner::join_districts(first, second, &mut out[1..]);
        assert_eq!(number(&answer), 15);
        assert_eq!(number(&planner::join_districts(first, second, &mut [])), 15);
    }
    assert!(out.iter().all(|&byte| byte == 7));
    assert_eq!(planner::join_districts(&[0; 6], &[0; 6], &mut out), Ok(6));
    assert_eq!(out[..7], [0, 0, 0, 0, 0, 0, 7]);
}
