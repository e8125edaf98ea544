//! Laws of votes, plans and verdicts on random small rosters.

mod common;

use std::collections::HashSet;

use common::roster;
use reference::blocking::blocking_pairs;
use reference::plan::Plan;
use reference::plans::{all_plans, strongly_popular, verdict, Verdict};
use reference::random::{self, Random, Shape};
use reference::roster::{write, Entry, Roster, SIDES};
use reference::tables::Tables;
use reference::votes::{least_sum, plan_vote};

/// Calls `check` with random small rosters that have a few dozen plans: one half
/// with one shift, the other with three.
fn on_random_rosters(seed: u64, count: usize, mut check: impl FnMut(&Roster)) {
    let shape = |nodes, shifts, pairs| Shape {
        counts: [1..=nodes, 1..=nodes],
        quotas: [0..=3, 0..=3],
        shifts,
        pairs,
        ties: 60,
        opposed: 50,
    };
    let shapes = [shape(3, 1, 70), shape(2, 3, 50)];
    let mut random = Random::new(seed);
    for turn in 0..count {
        check(&random::roster(&mut random, &shapes[turn % 2]));
    }
}

#[test]
fn a_valid_pairing_exists_and_a_node_votes_within_its_quota() {
    let mut full_votes = 0;
    on_random_rosters(21, 1_000, |roster| {
        let plans = all_plans(roster);
        for side in SIDES {
            for (number, node) in (1..).zip(roster.nodes(side)) {
                let share = |plan: &Plan| plan.entries(roster, side, number);
                let shares: HashSet<Vec<Entry>> = plans.iter().map(share).collect();
                for mine in &shares {
                    for theirs in &shares {
                        let vote = least_sum(node, mine, theirs).expect("a valid pairing");
                        let quota = i16::from(node.quota);
                        assert!((-quota..=quota).contains(&vote), "{:?}", write(roster));
                        full_votes += usize::from(quota > 1 && vote.abs() == quota);
                    }
                }
            }
        }
    });
    // The bounds are met, so a narrower range would fail.
    assert!(full_votes > 100, "{full_votes}");
}

#[test]
fn votes_of_two_plans() {
    let mut below_zero_together = 0;
    on_random_rosters(22, 1_000, |roster| {
        for plan in all_plans(roster) {
            assert_eq!(plan_vote(roster, &plan, &plan), 0, "{:?}", write(roster));
            for rival in all_plans(roster) {
                let sum = plan_vote(roster, &plan, &rival) + plan_vote(roster, &rival, &plan);
                assert!(sum <= 0, "{:?}", write(roster));
                below_zero_together += usize::from(sum < 0);
            }
        }
    });
    // The two votes do not always cancel: the law is no equation.
    assert!(below_zero_together > 100, "{below_zero_together}");
}

/// Which of document 01's three sentences hold of a plan, from all its votes.
fn sentences(roster: &Roster, plans: &[Plan], plan: &Plan) -> [bool; 3] {
    let others = || plans.iter().filter(|&other| other != plan);
    let votes: Vec<i16> = others().map(|n| plan_vote(roster, plan, n)).collect();
    let beaten = votes.iter().any(|&vote| vote < 0);
    let popular = votes.iter().all(|&vote| vote >= 0) && votes.contains(&0);
    let strong = votes.iter().all(|&vote| vote > 0);
    [beaten, popular, strong]
}

#[test]
fn exactly_one_verdict() {
    let mut seen = [0; 3];
    on_random_rosters(23, 3_000, |roster| {
        let plans = all_plans(roster);
        for plan in &plans {
            let sentences = sentences(roster, &plans, plan);
            let verdict = verdict(roster, plan);
            let expected = match &verdict {
                Verdict::Beaten(_) => [true, false, false],
                Verdict::Popular(_) => [false, true, false],
                Verdict::Strong => [false, false, true],
            };
            assert_eq!(sentences, expected, "{plan:?}: {:?}", write(roster));
            check_rival(roster, plan, &verdict);
            for (seen, holds) in seen.iter_mut().zip(sentences) {
                *seen += usize::from(holds);
            }
        }
    });
    println!("beaten, popular, strong: {seen:?}");
    assert!(seen.iter().all(|&count| count > 50), "{seen:?}");
}

/// A rival is another plan within the quotas, and the vote is against it.
fn check_rival(roster: &Roster, plan: &Plan, verdict: &Verdict<Plan>) {
    let (Verdict::Beaten(rival) | Verdict::Popular(rival)) = verdict else {
        return;
    };
    assert_ne!(rival.plan, *plan);
    assert!(rival.plan.within_quotas(roster));
    assert_eq!(rival.vote, plan_vote(roster, plan, &rival.plan));
    assert_eq!(rival.vote < 0, matches!(verdict, Verdict::Beaten(_)));
}

#[test]
fn a_strong_plan_is_alone_and_has_no_blocking_pair() {
    let mut strong_plans = 0;
    on_random_rosters(24, 1_000, |roster| {
        let strong = strongly_popular(roster);
        assert!(strong.len() <= 1, "{:?}", write(roster));
        for plan in &strong {
            strong_plans += 1;
            assert_eq!(blocking_pairs(roster, plan), [], "{:?}", write(roster));
        }
    });
    assert!((100..1_000).contains(&strong_plans), "{strong_plans}");
}

#[test]
fn the_only_plan_is_strong() {
    // Every surveyor has quota 0, so the empty plan is the only one.
    let roster = roster(&[
        2, 0, 0, 1, 8, 2, 0, 1, 1, 1, 1, 1, 1, 2, 0, 0, 2, 1, 1, 2, 1,
    ]);
    assert_eq!(all_plans(&roster), [Plan::default()]);
    assert_eq!(strongly_popular(&roster), [Plan::default()]);
}

#[test]
fn all_plans_are_the_sets_within_the_quotas() {
    on_random_rosters(25, 500, |roster| {
        let plans = all_plans(roster);
        let pairs = roster.pairs().len();
        let subsets = (0..1_usize << pairs)
            .map(|set| (0..pairs).filter(|pair| set >> pair & 1 == 1).collect());
        let within: Vec<Plan> = subsets
            .filter(|plan: &Plan| plan.within_quotas(roster))
            .collect();
        assert_eq!(plans.len(), within.len(), "{:?}", write(roster));
        let same = within.iter().all(|plan| plans.contains(plan));
        assert!(same, "{:?}", write(roster));
    });
}

#[test]
fn tables_give_the_votes_of_the_definition() {
    let mut tables = Tables::default();
    on_random_rosters(26, 1_000, |roster| {
        let contest = tables.contest(roster);
        let plans = contest.plans();
        for (m, plan) in plans.iter().enumerate() {
            for (n, rival) in plans.iter().enumerate() {
                let vote = plan_vote(roster, plan, rival);
                assert_eq!(contest.vote(m, n), vote, "{:?}", write(roster));
            }
        }
        let strong = contest.strongly_popular().into_iter();
        let strong: Vec<Plan> = strong.map(|index| plans[index].clone()).collect();
        assert_eq!(strong, strongly_popular(roster), "{:?}", write(roster));
    });
}
