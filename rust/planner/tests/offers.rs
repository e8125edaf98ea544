//! Plain offers through the library, against the reference, which lets another
//! surveyor offer first: every answer, and every byte of the buffer, which is
//! filled with junk first.

mod common;

use common::{junk, length, profile_file, same_refusal, Met, RANKED};
use planner::{Desk, Found, Offers, PLAN_BYTES};
use reference::every::{for_each_roster, Size};
use reference::finder::verdict_large;
use reference::offers::{one_to_one, profile_judged_by};
use reference::plans::verdict;
use reference::random::Random;
use reference::roster;

/// Holds a call against the reference's. Gives its number, 0 for none.
fn check(file: &[u8], before: &[u8], small: bool) -> Result<Offers, u8> {
    let [mut own, mut other] = [before.to_vec(), before.to_vec()];
    let expected = if small {
        profile_judged_by(file, &mut other, verdict)
    } else {
        profile_judged_by(file, &mut other, verdict_large)
    };
    match (planner::offers(file, &mut own), expected) {
        (Ok(offers), Ok((strong, length))) => {
            assert_eq!(offers, Offers { strong, length }, "{file:?}");
            assert_eq!(own, other, "{file:?}");
            Ok(offers)
        }
        (Err(ours), Err(theirs)) => {
            same_refusal(ours, theirs);
            assert_eq!(own, before);
            Err(ours.number)
        }
        (ours, theirs) => panic!("{ours:?}, but {theirs:?}: {file:?}"),
    }
}

fn run(seed: u64, files: usize, nodes: u8, numbers: &[usize]) {
    let mut random = Random::new(seed);
    let mut met = Met::default();
    let mut strong = [0; 2];
    for _ in 0..files {
        let file = profile_file(&mut random, nodes);
        let before = {
            let length = length(&mut random, PLAN_BYTES);
            junk(&mut random, length)
        };
        match check(&file, &before, nodes <= 4) {
            Ok(offers) => {
                met.count(0);
                strong[usize::from(offers.strong)] += 1;
            }
            Err(number) => met.count(number),
        }
    }
    println!("not strong, strong: {strong:?}");
    assert!(strong.iter().all(|&count| count >= 20), "{strong:?}");
    met.require(numbers, 1);
}

#[test]
fn small_rosters() {
    run(121, 4_000, 4, &[0, 1, 2, 3, 4, 5, 7, 8, 9, 15, 18, 22]);
}

#[test]
fn large_rosters() {
    run(122, 300, 32, &[0, 15, 22]);
}

/// Strong exactly when the finder hands back a plan, and then the same bytes.
/// Tells whether it does.
fn beside_the_finder(file: &[u8]) -> bool {
    let mut own = [0; PLAN_BYTES];
    let offers = planner::offers(file, &mut own).expect("of the profile");
    let mut desk = Desk::open();
    desk.load_roster(file).expect("accepted");
    let mut diary = vec![planner::Step::default(); planner::DIARY_RECORDS];
    let mut left = vec![0; planner::LEFT_BYTES];
    let [mut plan, mut rival] = [[0; PLAN_BYTES]; 2];
    let found = desk
        .find(&mut diary, &mut left, &mut plan, &mut rival)
        .expect("a roster is loaded");
    let handed_back = matches!(found, Found::Plan { .. });
    assert_eq!(offers.strong, handed_back, "{file:?}");
    if handed_back {
        assert_eq!(own[..offers.length], plan[..offers.length], "{file:?}");
    }
    handed_back
}

#[test]
fn large_rosters_beside_the_finder() {
    let mut random = Random::new(123);
    let mut met = [0; 2];
    for _ in 0..2_000 {
        let shape = common::shape_of_profile(&mut random, 12);
        let file = roster::write(&reference::random::roster(&mut random, &shape));
        met[usize::from(beside_the_finder(&file))] += 1;
    }
    println!("none, a plan: {met:?}");
    assert!(met.iter().all(|&count| count >= 100), "{met:?}");
}

/// Every roster with lists of these lengths: the profile's against the reference
/// and beside the finder, all others refused by 22.
#[test]
fn every_small_roster() {
    let sizes = [
        ([1, 1], 2, 0..=2, 133),
        ([2, 2], 1, 0..=2, 223),
        ([1, 3], 1, 1..=1, 79),
        ([3, 1], 1, 1..=1, 38),
        ([2, 3], 1, 1..=1, 10_132),
        ([3, 2], 1, 1..=1, 5_375),
    ];
    let before = [7; PLAN_BYTES];
    let mut met = [0u32; 2];
    let mut others = 0;
    for (counts, shifts, quotas, rosters) in sizes {
        let size = Size {
            counts,
            shifts,
            quotas: [quotas.clone(), quotas],
            rosters,
        };
        for_each_roster(&size, |roster| {
            let file = roster::write(roster);
            let answer = check(&file, &before, true);
            if one_to_one(roster) {
                let strong = answer.expect("of the profile").strong;
                assert_eq!(strong, beside_the_finder(&file), "{file:?}");
                met[usize::from(strong)] += 1;
            } else {
                assert_eq!(answer, Err(22), "{file:?}");
                others += 1;
            }
        });
    }
    println!("not strong, strong: {met:?}; {others} of another profile");
    assert!(met.iter().all(|&count| count >= 10), "{met:?}");
    assert!(others >= 1_000);
}

#[test]
fn stated_cases() {
    let mut out = [7; PLAN_BYTES];
    let offers = planner::offers(&RANKED, &mut out);
    assert_eq!(
        offers,
        Ok(Offers {
            strong: true,
            length: 4
        })
    );
    assert_eq!(out[..5], [1, 1, 1, 1, 7]);
    let refusal = planner::offers(&RANKED, &mut out[1..]).unwrap_err();
    assert_eq!(refusal.number, 15);
}

/// One pair, with what the profile shuts out one by one, and with another refusal
/// beside it, which comes before 22.
#[test]
fn twenty_two_is_last() {
    let pair = [1, 1, 1, 1, 1, 0, 1, 1, 1, 1, 0, 1, 0, 1, 1];
    let with = |changes: &[(usize, u8)]| {
        let mut file = pair.to_vec();
        for &(place, byte) in changes {
            file[place] = byte;
        }
        let answer = planner::offers(&file, &mut [0; PLAN_BYTES]);
        answer.map_err(|refusal| refusal.number)
    };
    assert!(with(&[]).is_ok_and(|offers| offers.strong && offers.length == 4));
    let of_another_profile: [&[(usize, u8)]; 6] = [
        &[(1, 0)],
        &[(1, 2)],
        &[(3, 0)],
        &[(3, 8)],
        &[(11, 0), (12, 1)],
        &[(8, 2), (14, 2)],
    ];
    for changes in of_another_profile {
        assert_eq!(with(changes), Err(22), "{changes:?}");
    }
    let refused_before: [(u8, &[(usize, u8)]); 7] = [
        (2, &[(1, 0), (2, 33)]),
        (3, &[(1, 0), (3, 9)]),
        (4, &[(1, 0), (13, 2)]),
        (7, &[(1, 0), (9, 2)]),
        (18, &[(1, 0), (8, 4)]),
        (18, &[(11, 0), (12, 1), (14, 0)]),
        (8, &[(1, 0), (8, 2)]),
    ];
    for (number, changes) in refused_before {
        assert_eq!(with(changes), Err(number), "{changes:?}");
    }
    let mut behind = pair.to_vec();
    behind[1] = 0;
    behind.push(0);
    let answer = planner::offers(&behind, &mut [0; PLAN_BYTES]);
    assert_eq!(answer.unwrap_err().number, 9);
}
