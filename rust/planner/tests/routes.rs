//! Rosters in walking order through the library, against the reference: every answer,
//! and every byte of the buffer, which is filled with junk first; there and back; and
//! the finder before and after.

mod common;

use std::fs;

use common::{found, junk, length, number, root, same_refusal, stored_file, without_pairs, Met};
use planner::{PAIR_BYTES, STORED_BYTES};
use reference::every::{for_each_roster, routes, FOR_ROUTES};
use reference::random::{self, Random};
use reference::refusal::Refusal;
use reference::roster::{self, Roster, Side};
use reference::routes::{self, write};

/// One of the two calls, and the reference's.
struct Call {
    ours: fn(&[u8], &mut [u8]) -> Result<usize, planner::Refusal>,
    theirs: fn(&[u8], &mut [u8]) -> Result<usize, Refusal>,
}

const STORE: Call = Call {
    ours: planner::store,
    theirs: routes::store,
};

const UNSTORE: Call = Call {
    ours: planner::unstore,
    theirs: routes::unstore,
};

impl Call {
    /// Holds a call against the reference's, both lent such a buffer. Gives the bytes
    /// written, or the refusal's number.
    fn check(&self, file: &[u8], before: &[u8]) -> Result<Vec<u8>, u8> {
        let [mut own, mut other] = [before.to_vec(), before.to_vec()];
        match ((self.ours)(file, &mut own), (self.theirs)(file, &mut other)) {
            (Ok(length), Ok(expected)) => {
                assert_eq!(length, expected, "{file:?}");
                assert!(own == other, "{file:?}");
                own.truncate(length);
                Ok(own)
            }
            (Err(ours), Err(theirs)) => {
                same_refusal(ours, theirs);
                assert!(own == before, "{file:?}");
                Err(ours.number)
            }
            (ours, theirs) => panic!("{ours:?}, but {theirs:?}: {file:?}"),
        }
    }
}

/// Stores and unstores a file. What is written is as long, and the other call undoes it;
/// both calls refuse alike. Gives the number of the refusal, 0 for none.
fn check(file: &[u8], before: &[u8]) -> u8 {
    let answers = [(STORE, UNSTORE), (UNSTORE, STORE)].map(|(there, back)| {
        let written = there.check(file, before)?;
        assert_eq!(written.len(), file.len());
        assert_eq!(back.check(&written, before).as_deref(), Ok(file));
        Ok(())
    });
    assert_eq!(answers[0], answers[1], "{file:?}");
    answers[0].err().unwrap_or(0)
}

/// A plan's file with each stand's number its place in the route, ascending.
fn renumbered(route: &[u8], plan: &[u8]) -> Vec<u8> {
    let along = |stand| route.iter().position(|&named| named == stand);
    let mut pairs: Vec<[u8; 3]> = plan[1..]
        .chunks_exact(PAIR_BYTES)
        .map(|pair| [pair[0], along(pair[1]).expect("a stand") as u8 + 1, pair[2]])
        .collect();
    pairs.sort_unstable();
    [&[plan[0]], pairs.as_flattened()].concat()
}

/// Stores a roster along a route, and holds the finder on the renumbered one against
/// the plan renumbered.
fn check_found(route: &[u8], roster: &Roster, plan: Option<&[u8]>, before: &[u8]) {
    let file = write(route, roster);
    assert_eq!(check(&file, before), 0);
    let stored = STORE.check(&file, before).expect("accepted");
    assert_eq!(stored[..=route.len()], file[..=route.len()]);
    let expected = plan.map(|plan| renumbered(route, plan));
    assert_eq!(found(&stored[1 + route.len()..]), expected, "{file:?}");
}

#[test]
fn every_small_roster_along_every_route() {
    let before = junk(&mut Random::new(141), STORED_BYTES);
    let mut met = [0u32; 2];
    for size in &FOR_ROUTES {
        let mut rosters = 0;
        let routes = routes(size.counts[1]);
        for_each_roster(size, |roster| {
            rosters += 1;
            let plan = found(&roster::write(roster));
            met[usize::from(plan.is_some())] += 1;
            for route in &routes {
                check_found(route, roster, plan.as_deref(), &before);
            }
        });
        assert_eq!(rosters, size.rosters);
    }
    println!("none, a plan: {met:?}");
    assert!(met.iter().all(|&count| count >= 1_000), "{met:?}");
}

#[test]
fn rosters_of_any_size_along_random_routes() {
    let mut random = Random::new(142);
    let before = junk(&mut random, STORED_BYTES + 5);
    let (mut met, mut one_way) = ([0u32; 2], 0);
    for _ in 0..4_000 {
        let shape = [random::any_shape, random::small_shape][random.below(2)](&mut random);
        let roster = random::roster(&mut random, &shape);
        let route = random::route(&mut random, roster.nodes(Side::Stands).len());
        let plan = found(&roster::write(&roster));
        check_found(&route, &roster, plan.as_deref(), &before);
        met[usize::from(plan.is_some())] += 1;
        one_way += u32::from(!is_own_way_back(&route));
    }
    println!("none, a plan: {met:?}; {one_way} routes are not their own way back");
    assert!(
        met.iter().all(|&count| count >= 500) && one_way >= 1_000,
        "{met:?}"
    );
}

/// Whether each stand's new number leads back to its old one.
fn is_own_way_back(route: &[u8]) -> bool {
    let mut places = (1..).zip(route);
    places.all(|(place, &stand): (u8, _)| route[usize::from(stand) - 1] == place)
}

#[test]
fn the_longest() {
    let mut random = Random::new(143);
    let before = junk(&mut random, STORED_BYTES);
    for _ in 0..50 {
        let roster = random::roster(&mut random, &random::longest_shape(50, 20));
        let route = random::route(&mut random, 32);
        let file = write(&route, &roster);
        assert_eq!(file.len(), STORED_BYTES);
        assert_eq!(check(&file, &before), 0);
        assert_eq!(check(&file[..STORED_BYTES - 1], &before), 1);
        assert_eq!(check(&[&file[..], &[0]].concat(), &before), 9);
    }
}

#[test]
fn random_and_damaged_files() {
    let mut random = Random::new(144);
    let mut met = Met::default();
    for _ in 0..100_000 {
        let file = stored_file(&mut random);
        let before = {
            let length = length(&mut random, STORED_BYTES);
            junk(&mut random, length)
        };
        met.count(check(&file, &before));
    }
    met.require(&[0, 1, 2, 3, 4, 5, 6, 7, 8, 9, 15, 18, 23], 50);
}

/// Two surveyors and three stands with ties and shifts, along 2, 3, 1.
const MIXED: [u8; 51] = [
    3, 2, 3, 1, // the route
    2, 1, 2, 3, 2, 0, 1, // quotas
    7, 0, 4, 1, 3, 1, 1, 2, 2, 3, 1, 3, 2, 1, 1, 2, 3, 3, // surveyors' lists
    7, 0, 1, 2, 1, 3, 1, 1, 2, 2, 0, 2, 1, 2, 2, 1, 1, 1, 2, 3, 1, 1, // stands' lists
];

#[test]
fn along_two_three_one() {
    let before = junk(&mut Random::new(145), STORED_BYTES);
    let stored = [
        3, 2, 3, 1, // stand 2 becomes 1, 3 becomes 2, 1 becomes 3
        2, 1, 2, 3, 0, 1, 2, // quotas
        7, 0, 4, 3, 3, 3, 1, 1, 2, 2, 1, 3, 1, 1, 3, 2, 2, 3, // in the same order
        7, 0, 0, 2, 1, 2, 2, 1, 1, 1, 2, 3, 1, 1, 1, 2, 1, 3, 1, 1, 2, 2, // stands 2, 3, 1
    ];
    assert_eq!(STORE.check(&MIXED, &before).as_deref(), Ok(&stored[..]));
    assert_eq!(UNSTORE.check(&stored, &before).as_deref(), Ok(&MIXED[..]));
    // a file that was never stored can be unstored; the other way round it is another
    let unstored = UNSTORE.check(&MIXED, &before).expect("accepted");
    assert_ne!(unstored, stored);
    assert_eq!(STORE.check(&unstored, &before).as_deref(), Ok(&MIXED[..]));
}

#[test]
fn files_damaged_at_every_byte() {
    let before = junk(&mut Random::new(146), STORED_BYTES);
    let mut met = Met::default();
    for place in 0..=MIXED.len() {
        met.count(check(&MIXED[..place], &before));
        let mut longer = MIXED.to_vec();
        longer.insert(place, 1);
        met.count(check(&longer, &before));
    }
    for place in 0..MIXED.len() {
        for byte in 0..=255 {
            let mut damaged = MIXED.to_vec();
            damaged[place] = byte;
            met.count(check(&damaged, &before));
        }
    }
    met.require(&[0, 1, 2, 3, 4, 5, 6, 7, 8, 18, 23], 10);
    met.require(&[9], 1);
}

#[test]
fn the_route_is_read_before_the_roster() {
    let before = junk(&mut Random::new(147), STORED_BYTES);
    let roster = &MIXED[4..];
    for count in 33..=255 {
        assert_eq!(check(&[count], &before), 2);
        assert_eq!(check(&[&[count], roster].concat(), &before), 2);
        assert_eq!(
            check(&[&[count][..], &[1; 255], roster].concat(), &before),
            2
        );
    }
    for count in 0..=32 {
        for numbers in 0..usize::from(count) {
            let cut = [&[count][..], &[1; 32][..numbers]].concat();
            assert_eq!(check(&cut, &before), 1);
        }
        // the route is whole, and what follows is no roster
        let whole = [&[count][..], &[1; 32][..usize::from(count)]].concat();
        assert_eq!(check(&whole, &before), 1);
        assert_eq!(check(&[&whole[..], &[33]].concat(), &before), 2);
        assert_eq!(check(&[&whole[..], &[1, 9]].concat(), &before), 3);
    }
}

#[test]
fn a_bad_route_is_refused_behind_the_roster() {
    let before = junk(&mut Random::new(148), STORED_BYTES);
    let roster = &MIXED[4..];
    let bad: [&[u8]; 8] = [
        &[0],
        &[2, 1, 2],
        &[3, 0, 2, 3],
        &[3, 1, 2, 4],
        &[3, 1, 1, 2],
        &[3, 3, 3, 3],
        &[3, 1, 2, 255],
        &[4, 1, 2, 3, 1],
    ];
    for route in bad {
        assert_eq!(check(&[route, roster].concat(), &before), 23);
        // what is wrong with the roster comes first, at its end too
        assert_eq!(check(&[route, roster, &[0]].concat(), &before), 9);
        let cut = &roster[..roster.len() - 1];
        assert_eq!(check(&[route, cut].concat(), &before), 1);
        let mut one_side = roster.to_vec();
        *one_side.last_mut().expect("a shift") = 2;
        assert_eq!(check(&[route, &one_side].concat(), &before), 8);
    }
}

#[test]
fn routes_over_32_stands() {
    let before = junk(&mut Random::new(149), STORED_BYTES);
    let quotas: Vec<u8> = (0..32).map(|stand| stand % 4).collect();
    let roster = without_pairs([&[], &quotas]);
    let turned: Vec<u8> = (1..=32).rev().collect();
    let file = [&[32], &turned[..], &roster].concat();
    let stored = STORE.check(&file, &before).expect("accepted");
    let expected: Vec<u8> = quotas.iter().rev().copied().collect();
    assert_eq!(stored[35..67], expected);
    assert_eq!(check(&file, &before), 0);
    // no stands
    assert_eq!(
        check(&[&[0][..], &without_pairs([&[1], &[]])].concat(), &before),
        0
    );
}

#[test]
fn the_sample() {
    let sample = |name| fs::read(root().join("samples").join(name)).expect("a sample");
    let before = junk(&mut Random::new(150), STORED_BYTES);
    let file = [&[3, 2, 3, 1], &sample("walked.roster")[..]].concat();
    assert_eq!(STORE.check(&file, &before), Ok(sample("walked.stored")));
    assert_eq!(check(&file, &before), 0);
}

#[test]
fn a_buffer_one_below_its_size() {
    assert_eq!(STORED_BYTES, 4_295);
    let mut out = [7; STORED_BYTES];
    for call in [STORE, UNSTORE] {
        for file in [&MIXED[..], &[], &[33]] {
            assert_eq!(number(&(call.ours)(file, &mut out[1..])), 15);
            assert_eq!(number(&(call.ours)(file, &mut [])), 15);
            // enough for a roster, and for all that is written
            assert_eq!(number(&(call.ours)(file, &mut out[..4_262])), 15);
        }
        assert!(out.iter().all(|&byte| byte == 7));
    }
    assert_eq!(planner::store(&[0; 7], &mut out), Ok(7));
    assert_eq!(out[..8], [0, 0, 0, 0, 0, 0, 0, 7]);
}
