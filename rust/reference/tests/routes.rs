//! Stored in walking order: stated cases, the order of the refusals, the buffers, and
//! that storing and unstoring undo each other; by brute force that the strongly popular
//! plans of the renumbered roster are the renumbered ones, and that votes stay.

mod common;

use common::{roster, Bytes, P1, P10, P6};
use reference::every::{for_each_roster, routes, FOR_ROUTES};
use reference::limits::MAX_STORED_BYTES;
use reference::plan::Plan;
use reference::random::{self, Random};
use reference::refusal::{Group, Refusal};
use reference::roster::{read, Pair, Roster, Side};
use reference::routes::{pairs_along, store, unstore, walked, walked_back, write};
use reference::tables::Tables;
use reference::votes::plan_vote;

type Turn = fn(&[u8], &mut [u8]) -> Result<usize, Refusal>;

/// The bytes that a call writes, or the refusal's number. Behind them the buffer keeps
/// its bytes.
fn written(turn: Turn, file: &[u8]) -> Result<Vec<u8>, u8> {
    let mut out = [77; MAX_STORED_BYTES];
    let written = match turn(file, &mut out) {
        Ok(length) => Ok(out[..length].to_vec()),
        Err(refusal) => Err(refusal.number()),
    };
    let length = written.as_ref().map_or(0, Vec::len);
    assert!(out[length..].iter().all(|&byte| byte == 77));
    written
}

/// One surveyor ranks stands 3, 1 and 2, the last in shifts 3 and 1, which stand 2
/// ties; the stands' quotas are 4, 5 and 6.
const THREE: Bytes = &[
    1, 2, 3, 4, 5, 6, // quotas
    4, 0, 4, 3, 1, 1, 2, 2, 3, 2, 1, // the surveyor's list
    4, 0, 1, 0, 1, 2, 0, 2, 1, 1, 1, 3, 1, 0, 1, 1, // the stands' lists
];

#[test]
fn along_two_three_one_and_back() {
    let route: Bytes = &[3, 2, 3, 1];
    let stored: Bytes = &[
        3, 2, 3, 1, 1, 2, 3, 5, 6, 4, // the route stays; quotas of stands 2, 3, 1
        4, 0, 4, 2, 1, 3, 2, 1, 3, 1, 1, // 3 is second, 1 third, 2 first
        4, 0, 0, 2, 1, 1, 1, 3, 1, 0, 1, 1, 1, 0, 1, 2, // lists of stands 2, 3, 1
    ];
    let file = [route, THREE].concat();
    assert_eq!(written(store, &file), Ok(stored.to_vec()));
    assert_eq!(written(unstore, stored), Ok(file));
}

#[test]
fn along_other_routes() {
    let crossed: Bytes = &[
        2, 2, 1, 2, 1, 1, 2, 1, 1, 4, 0, 2, 2, 1, 1, 1, 2, 1, 1, 2, 1, 4, 0, 2, 0, 1, 1, 2, 1, 2,
        0, 2, 1, 1, 1,
    ];
    assert_eq!(
        written(store, &[&[2, 2, 1], P6].concat()),
        Ok(crossed.to_vec())
    );
    // no stands, and the route as it is
    let (empty, plain) = ([&[0], P1].concat(), [&[3, 1, 2, 3], THREE].concat());
    for turn in [store, unstore] {
        assert_eq!(written(turn, &empty), Ok(empty.clone()));
        assert_eq!(written(turn, &plain), Ok(plain.clone()));
    }
}

#[test]
fn refusals_in_their_order() {
    let cut = &THREE[..THREE.len() - 1];
    let behind = [THREE, &[0]].concat();
    let cases: [(&str, Bytes, &[u8], u8); 15] = [
        ("no bytes", &[], &[], 1),
        ("no number", &[1], &[], 1),
        ("a number is missing", &[32], &[1; 31], 1),
        ("33 and nothing behind", &[33], &[], 2),
        ("34 numbers", &[34], &[1; 34], 2),
        ("255", &[255], THREE, 2),
        ("no roster", &[3, 2, 3, 1], &[], 1),
        ("twice named, roster cut short", &[3, 2, 2, 1], cut, 1),
        ("twice named, a byte behind", &[3, 2, 2, 1], &behind, 9),
        ("one too few, quota 9", &[2, 1, 2], &[1, 9], 3),
        ("twice named", &[3, 2, 2, 1], THREE, 23),
        ("number 0", &[3, 2, 0, 1], THREE, 23),
        ("number 4", &[3, 2, 4, 1], THREE, 23),
        ("one too few", &[2, 1, 2], THREE, 23),
        ("one too many", &[4, 1, 2, 3, 3], THREE, 23),
    ];
    for (name, route, roster, number) in cases {
        for turn in [store, unstore] {
            let file = [route, roster].concat();
            assert_eq!(written(turn, &file), Err(number), "{name}");
        }
    }
    assert_eq!(Refusal::NotEachStandOnce.group(), Group::Content);
    // a route over stands that a roster without stands lacks, and the other way round
    assert_eq!(written(store, &[&[1, 1], P1].concat()), Err(23));
    assert_eq!(written(store, &[&[0], THREE].concat()), Err(23));
}

#[test]
fn a_buffer_below_its_size_is_15_before_the_file() {
    assert_eq!(MAX_STORED_BYTES, 4_295);
    for file in [&[0, 0, 0, 0, 0, 0, 0][..], &[], &[33]] {
        for turn in [store, unstore] {
            let mut out = [77; MAX_STORED_BYTES - 1];
            assert_eq!(turn(file, &mut out), Err(Refusal::BufferTooSmall));
            assert!(out.iter().all(|&byte| byte == 77));
        }
    }
}

/// Whether the file of a roster and a route goes there and back, both ways, and stays
/// as long.
fn there_and_back(route: &[u8], roster: &Roster) {
    let file = write(route, roster);
    for (turn, back, turned) in [
        (store as Turn, unstore as Turn, walked(route, roster)),
        (unstore, store, walked_back(route, roster)),
    ] {
        let written_file = written(turn, &file).expect("accepted");
        assert_eq!(written_file, write(route, &turned), "{file:?}");
        assert_eq!(read(&written_file[1 + route.len()..]), Ok(turned));
        assert_eq!(written_file.len(), file.len());
        assert_eq!(written(back, &written_file).as_ref(), Ok(&file));
    }
}

/// Whether the strongly popular plans along a route are the renumbered ones. Tells
/// whether there is one.
fn check(tables: &mut Tables, route: &[u8], roster: &Roster) -> bool {
    there_and_back(route, roster);
    let strong = |tables: &mut Tables, roster: &Roster| -> Vec<Plan> {
        let contest = tables.contest(roster);
        let strong = contest.strongly_popular().into_iter();
        strong.map(|plan| contest.plans()[plan].clone()).collect()
    };
    let along = walked(route, roster);
    let expected: Vec<Vec<Pair>> = strong(tables, roster)
        .iter()
        .map(|plan| pairs_along(route, roster, plan))
        .collect();
    let found: Vec<Vec<Pair>> = strong(tables, &along)
        .iter()
        .map(|plan| plan.pairs(&along).collect())
        .collect();
    assert_eq!(found, expected, "{:?}", write(route, roster));
    !found.is_empty()
}

#[test]
fn every_small_roster_along_every_route() {
    let mut tables = Tables::default();
    let mut met = [0u32; 2];
    for size in &FOR_ROUTES {
        let mut rosters = 0;
        let routes = routes(size.counts[1]);
        for_each_roster(size, |roster| {
            rosters += 1;
            for route in &routes {
                met[usize::from(check(&mut tables, route, roster))] += 1;
            }
        });
        assert_eq!(rosters, size.rosters);
    }
    println!("none, a strong plan: {met:?}");
    assert!(met.iter().all(|&count| count >= 1_000), "{met:?}");
}

#[test]
fn random_rosters_along_random_routes() {
    let mut random = Random::new(214);
    let mut tables = Tables::default();
    let mut met = [0u32; 2];
    for _ in 0..4_000 {
        let shape = random::small_shape(&mut random);
        let roster = random::roster(&mut random, &shape);
        let route = random::route(&mut random, roster.nodes(Side::Stands).len());
        met[usize::from(check(&mut tables, &route, &roster))] += 1;
    }
    println!("none, a strong plan: {met:?}");
    assert!(met.iter().all(|&count| count >= 500), "{met:?}");
}

#[test]
fn rosters_of_any_size_go_there_and_back() {
    let mut random = Random::new(215);
    for _ in 0..2_000 {
        let shape = random::any_shape(&mut random);
        let roster = random::roster(&mut random, &shape);
        let route = random::route(&mut random, roster.nodes(Side::Stands).len());
        there_and_back(&route, &roster);
    }
    let roster = random::roster(&mut random, &random::longest_shape(50, 20));
    let route = random::route(&mut random, 32);
    assert_eq!(write(&route, &roster).len(), MAX_STORED_BYTES);
    there_and_back(&route, &roster);
}

#[test]
fn votes_stay() {
    let mut random = Random::new(216);
    let mut below = 0;
    for _ in 0..5_000 {
        let shape = random::small_shape(&mut random);
        let roster = random::roster(&mut random, &shape);
        let route = random::route(&mut random, roster.nodes(Side::Stands).len());
        let along = walked(&route, &roster);
        let plans = [(); 2].map(|()| random::plan(&mut random, &roster, 80));
        let renumbered = plans.each_ref().map(|plan| {
            let pairs = pairs_along(&route, &roster, plan).into_iter();
            let index = |pair| along.index_of(pair).expect("a pair of the roster");
            pairs.map(index).collect::<Plan>()
        });
        let vote = plan_vote(&roster, &plans[0], &plans[1]);
        assert_eq!(plan_vote(&along, &renumbered[0], &renumbered[1]), vote);
        below += u32::from(vote < 0);
    }
    println!("below zero {below} times");
    assert!(below >= 500);
}

#[test]
fn a_strong_plan_renumbered() {
    // P10's plan 1-2, 2-1 becomes 1-1, 2-2
    let along = walked(&[2, 1], &roster(P10));
    let contest = Tables::default().contest(&along);
    let strong = contest.strongly_popular();
    let pairs: Vec<Pair> = contest.plans()[strong[0]].pairs(&along).collect();
    let bytes: Vec<[u8; 3]> = pairs.into_iter().map(Pair::bytes).collect();
    assert_eq!(bytes, [[1, 1, 1], [2, 2, 1]]);
}
