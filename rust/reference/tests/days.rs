//! Plans spread over days: the plain spreading and the fast one keep the
//! request's words, and no spreading of a small plan uses fewer days.

mod common;

use common::{plan, roster, without_pairs, Bytes, Pairs, P1, P10, P6, P7, SHIFTS};
use reference::days::{busiest, days_used, fewest_days, is_sheet, spread, spreads};
use reference::fast;
use reference::limits::{MAX_DAY_BYTES, MAX_QUOTA};
use reference::plan::{self, Plan};
use reference::random::{self, any_shape, Random, Shape};
use reference::roster::{self, List, Node, Pair, Roster, SIDES};

/// The pairs of a plan, in its order.
fn pairs(roster: &Roster, plan: &Plan) -> Vec<Pair> {
    plan.pairs(roster).collect()
}

/// The days of the spreading written for speed.
fn fast_spread(roster: &Roster, plan: &Plan) -> Vec<u8> {
    let instance = fast::roster::read(&roster::write(roster)).expect("accepted");
    let chosen = fast::plan::read(&instance, &plan::write(roster, plan)).expect("accepted");
    let mut days = [0; MAX_DAY_BYTES];
    let count = fast::days::spread(&instance, &chosen, &mut days);
    days[..count].to_vec()
}

/// Holds both spreadings against the request, and gives the days used.
fn check(roster: &Roster, plan: &Plan) -> usize {
    let pairs = pairs(roster, plan);
    let most = busiest(&pairs);
    assert!(most <= usize::from(MAX_QUOTA));
    for days in [spread(roster, plan), fast_spread(roster, plan)] {
        assert!(is_sheet(&pairs, &days), "{pairs:?}: {days:?}");
        // as many days as the busiest node has entries, and none passed over
        let last = days.iter().max().map_or(0, |&last| usize::from(last));
        assert_eq!(last, most, "{pairs:?}: {days:?}");
    }
    most
}

/// Plans with the entries of their busiest node.
#[rustfmt::skip]
const PLANS: &[(&str, Bytes, Pairs, usize)] = &[
    ("no entries", P1, &[], 0),
    ("no entries of a roster that has some", P10, &[], 0),
    ("one entry", P10, &[(1, 2, 1)], 1),
    ("two surveyors, two stands", P6, &[(1, 1, 1), (2, 2, 1)], 1),
    ("two surveyors, one stand", P10, &[(1, 2, 1), (2, 2, 1)], 2),
    ("two of four surveyors", P7, &[(2, 1, 1), (4, 1, 1)], 2),
    ("one surveyor and one stand in two shifts", SHIFTS, &[(1, 1, 1), (1, 1, 3)], 2),
];

#[test]
fn plans_by_hand() {
    for &(name, file, pairs, days) in PLANS {
        let roster = roster(file);
        assert_eq!(check(&roster, &plan(&roster, pairs)), days, "{name}");
    }
    let none = roster(&without_pairs(&[8, 0], &[1]));
    assert_eq!(check(&none, &Plan::default()), 0);
}

/// Numbers as a plan's pairs, in shift 1 each.
fn entries(numbers: &[(u8, u8)]) -> Vec<Pair> {
    let pair = |&(surveyor, stand): &(u8, u8)| Pair {
        surveyor,
        stand,
        shift: 1,
    };
    numbers.iter().map(pair).collect()
}

#[test]
fn what_a_spreading_is() {
    let pairs = entries(&[(1, 2), (1, 3), (2, 1), (2, 3)]);
    assert_eq!((busiest(&pairs), fewest_days(&pairs)), (2, 2));
    for (days, spread, sheet) in [
        (&[1, 2, 2, 1][..], true, true),
        (&[2, 1, 1, 2], true, true),
        // days beyond the second, but two of them
        (&[3, 9, 9, 3], true, true),
        (&[3, 10, 10, 3], true, false),
        (&[0, 1, 1, 0], true, false),
        // the first day free at both ends, entry by entry
        (&[1, 2, 1, 3], true, false),
        // surveyor 1 twice, stand 3 twice, a day too few, a day too many
        (&[1, 1, 2, 2], false, false),
        (&[1, 2, 1, 2], false, false),
        (&[1, 2, 2], false, false),
        (&[1, 2, 2, 1, 1], false, false),
    ] {
        assert_eq!(spreads(&pairs, days), spread, "{days:?}");
        assert_eq!(is_sheet(&pairs, days), sheet, "{days:?}");
    }
    assert_eq!(days_used(&[3, 1, 3, 9]), 3);
}

/// A roster of three surveyors and three stands with room for all of these pairs.
fn roster_of(pairs: &[Pair]) -> Roster {
    let [surveyors, stands] = SIDES.map(|side| {
        let node = |number| {
            let own = pairs.iter().filter(|pair| pair.end(side) == number);
            Node {
                quota: MAX_QUOTA,
                list: List {
                    strict: own.map(|pair| pair.entry(side)).collect(),
                    tied: Vec::new(),
                },
            }
        };
        (1..=3).map(node).collect()
    });
    Roster::new(surveyors, stands).expect("both sides list the same pairs")
}

#[test]
fn no_spreading_of_a_small_plan_uses_fewer() {
    // every set of up to six of the pairs of three surveyors and three stands in two
    // shifts, as a plan
    let shifts = |surveyor, stand| {
        [1, 3].map(|shift| Pair {
            surveyor,
            stand,
            shift,
        })
    };
    let stands = |surveyor| (1..=3).flat_map(move |stand| shifts(surveyor, stand));
    let all: Vec<Pair> = (1..=3).flat_map(stands).collect();
    let mut plans = 0;
    for set in 0..1u32 << all.len() {
        if set.count_ones() > 6 {
            continue;
        }
        let chosen = (0..all.len()).filter(|place| set >> place & 1 == 1);
        let chosen: Vec<Pair> = chosen.map(|place| all[place]).collect();
        let roster = roster_of(&chosen);
        let plan: Plan = (0..chosen.len()).collect();
        assert_eq!(check(&roster, &plan), fewest_days(&chosen), "{chosen:?}");
        plans += 1;
    }
    assert_eq!(plans, 31_180);
}

#[test]
fn random_plans() {
    let mut random = Random::new(209);
    let mut met = [0; 1 + MAX_QUOTA as usize];
    for _ in 0..3_000 {
        let shape = any_shape(&mut random);
        let roster = random::roster(&mut random, &shape);
        met[check(&roster, &random::maximal_plan(&mut random, &roster))] += 1;
    }
    println!("plans by their days: {met:?}");
    assert!(met.iter().all(|&count| count >= 30));
}

#[test]
fn parallel_entries() {
    let mut random = Random::new(210);
    let mut most = [0; 4];
    for _ in 0..2_000 {
        let nodes = random.within(&(1..=8));
        let shape = Shape {
            counts: [1..=nodes, 1..=nodes],
            quotas: [2..=8, 2..=8],
            shifts: 3,
            pairs: 100,
            ties: 0,
            opposed: 0,
        };
        let roster = random::roster(&mut random, &shape);
        let plan = random::maximal_plan(&mut random, &roster);
        check(&roster, &plan);
        most[most_parallel(&pairs(&roster, &plan))] += 1;
    }
    println!("plans by the most entries of one surveyor and one stand: {most:?}");
    assert!(most[2] >= 100 && most[3] >= 100);
}

/// How many entries one surveyor and one stand have at most.
fn most_parallel(pairs: &[Pair]) -> usize {
    let same =
        |one: &Pair, other: &Pair| (one.surveyor, one.stand) == (other.surveyor, other.stand);
    let counts = pairs
        .iter()
        .map(|one| pairs.iter().filter(|other| same(one, other)).count());
    counts.max().unwrap_or(0)
}
