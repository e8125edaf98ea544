//! The examples of docs/THEORY.md, "Where the report is short", and the one of
//! its forward chain. Numbers are those of the document, from 1 on.

mod common;
mod report;

use common::{entries, plan, roster, Pairs, P10};
use reference::blocking::blocking_pairs;
use reference::plan::Plan;
use reference::plans::{all_plans, strongly_popular};
use reference::reduction::State;
use reference::roster::{Entry, List, Node, Roster, Side, SIDES};
use reference::rules::RULES;
use reference::votes::{plan_vote, rank, rank_vote};
use report::{claims, next_step, properties};

const YES: bool = true;
const NO: bool = false;

/// A node with shift 1 throughout.
fn node(quota: u8, strict: &[u8], tied: &[u8]) -> Node {
    let (strict, tied) = (entries(strict), entries(tied));
    let list = List { strict, tied };
    Node { quota, list }
}

fn roster_of<const S: usize, const T: usize>(surveyors: [Node; S], stands: [Node; T]) -> Roster {
    Roster::new(surveyors.into(), stands.into()).expect("both sides list the same pairs")
}

/// One surveyor and one stand of quotas 2 and 1, in so many shifts: the surveyor
/// ranks them, the stand ties them.
fn parallel(shifts: u8) -> Roster {
    let list = || (1..=shifts).map(|shift| Entry { number: 1, shift });
    let (strict, tied) = (list().collect(), list().collect());
    let surveyor = List {
        strict,
        tied: Vec::new(),
    };
    let stand = List {
        strict: Vec::new(),
        tied,
    };
    roster_of(
        [Node {
            quota: 2,
            list: surveyor,
        }],
        [Node {
            quota: 1,
            list: stand,
        }],
    )
}

fn p11() -> Roster {
    roster_of(
        [node(2, &[1, 2], &[]), node(1, &[1, 2], &[])],
        [node(1, &[], &[1, 2]), node(1, &[2, 1], &[])],
    )
}

/// The pairs of a plan at a node, counted from 1.
fn degree(roster: &Roster, plan: &Plan, side: Side, number: u8) -> usize {
    plan.entries(roster, side, number).len()
}

/// The numbers of the rules that name a pair before the first step.
fn rules_that_act(roster: &Roster) -> Vec<u8> {
    let mut state = State::new(roster);
    let picture = state.picture();
    let acts = RULES
        .iter()
        .filter(|rule| picture.first_named(rule.names).is_some());
    acts.map(|rule| rule.number).collect()
}

/// A plan with some pairs exchanged for others.
fn exchanged(roster: &Roster, held: Pairs, out: Pairs, new: Pairs) -> Plan {
    let kept = held.iter().filter(|pair| !out.contains(pair));
    let pairs: Vec<(u8, u8, u8)> = kept.chain(new).copied().collect();
    plan(roster, &pairs)
}

/// Lemma 3.13 is false: all six properties, pairs remain, and there is a
/// strongly popular plan. It leaves stand 2 with room, so Lemma 3.10 is false
/// for stands.
#[test]
fn p10_has_the_six_properties_and_a_strong_plan() {
    let roster = roster(P10);
    assert_eq!(properties(&roster), [YES; 6]);
    let mut state = State::new(&roster);
    assert_eq!(next_step(&mut state, claims()), None);
    assert_eq!(state.remaining().len(), 4);
    let strong = plan(&roster, &[(1, 2, 1), (2, 1, 1)]);
    assert_eq!(degree(&roster, &strong, Side::Stands, 2), 1);
    assert_eq!(strongly_popular(&roster), [strong]);
    assert_eq!(rules_that_act(&roster), [7]);
}

/// Lemma 3.10 is false for surveyors: the properties that it stands on, the
/// first five, hold, and the strong plan leaves surveyor 1 with room.
#[test]
fn p11_and_two_parallel_pairs_have_five_properties_and_a_strong_plan() {
    let two = parallel(2);
    let cases: [(Roster, Pairs); 2] = [(p11(), &[(1, 1, 1), (2, 2, 1)]), (two, &[(1, 1, 1)])];
    for (roster, pairs) in cases {
        assert_eq!(properties(&roster), [YES, YES, YES, YES, YES, NO]);
        let strong = plan(&roster, pairs);
        assert_eq!(roster.node(Side::Surveyors, 1).quota, 2);
        assert_eq!(degree(&roster, &strong, Side::Surveyors, 1), 1);
        assert_eq!(strongly_popular(&roster), [strong]);
        assert_eq!(rules_that_act(&roster), [6]);
    }
}

/// The vote without the last condition of a valid pairing, as it is printed in
/// the copy at hand: shared pairs face themselves, and nothing else is asked.
fn vote_as_printed(roster: &Roster, mine: &Plan, theirs: &Plan) -> i16 {
    let nodes = SIDES
        .into_iter()
        .flat_map(|side| (1..).zip(roster.nodes(side)).map(move |n| (side, n)));
    nodes
        .map(|(side, (number, node))| {
            let mine = mine.entries(roster, side, number);
            let theirs = theirs.entries(roster, side, number);
            let ranks = |own: &[Entry], other: &[Entry]| {
                let alone = own.iter().filter(|entry| !other.contains(entry));
                let mut ranks: Vec<u8> =
                    alone.map(|&entry| rank(&node.list, Some(entry))).collect();
                let shared = own.len() - ranks.len();
                let places = usize::from(node.quota) - shared;
                ranks.resize(places, rank(&node.list, None));
                ranks
            };
            least_in_any_order(&ranks(&mine, &theirs), &ranks(&theirs, &mine))
        })
        .sum()
}

/// The least sum of votes over all ways to set two lists of ranks against each
/// other.
fn least_in_any_order(mine: &[u8], theirs: &[u8]) -> i16 {
    let Some((&first, rest)) = mine.split_first() else {
        return 0;
    };
    let facing = |place: usize| {
        let mut others = theirs.to_vec();
        let faced = others.remove(place);
        rank_vote(first, faced) + least_in_any_order(rest, &others)
    };
    (0..theirs.len()).map(facing).min().expect("as many places")
}

/// All of that depends on the condition: without it none of the three has a
/// strongly popular plan.
#[test]
fn without_the_last_condition_there_is_no_strong_plan() {
    for roster in [roster(P10), p11(), parallel(2)] {
        let plans = all_plans(&roster);
        for held in &plans {
            let others = || plans.iter().filter(|&other| other != held);
            assert!(others().any(|other| vote_as_printed(&roster, held, other) <= 0));
            let least = |other| vote_as_printed(&roster, held, other);
            assert!(others().all(|other| least(other) <= plan_vote(&roster, held, other)));
        }
    }
    let roster = roster(P10);
    let strong = plan(&roster, &[(1, 2, 1), (2, 1, 1)]);
    let rival = plan(&roster, &[(1, 1, 1), (2, 2, 1)]);
    assert_eq!(plan_vote(&roster, &strong, &rival), 1);
    assert_eq!(vote_as_printed(&roster, &strong, &rival), 0);
}

/// Claim 3.6: stand 2, quota 2, is loose and full. The path of the proof goes on
/// along a pair of the plan there; along the strict one the vote is above zero.
#[test]
fn claim_3_6_must_choose_a_tied_pair() {
    let roster = roster_of(
        [
            node(1, &[1, 2, 3], &[]),
            node(1, &[1, 2], &[]),
            node(1, &[1, 2], &[]),
            node(1, &[1], &[]),
        ],
        [
            node(1, &[], &[1, 2, 3, 4]),
            node(2, &[2], &[1, 3]),
            node(1, &[1], &[]),
        ],
    );
    assert_eq!(roster.pairs().len(), 8);
    assert_eq!(properties(&roster)[..4], [YES, YES, YES, NO]);
    let mut state = State::new(&roster);
    let picture = state.picture();
    let named = |number: usize| picture.first_named(RULES[number - 1].names);
    assert_eq!([named(1), named(2), named(3)], [None; 3]);
    let pair = |pairs| plan(&roster, pairs);
    assert_eq!(
        picture.n(0).into_iter().collect::<Plan>(),
        pair(&[(1, 2, 1), (1, 3, 1)])
    );
    assert!(picture.is_loose(1));
    const HELD: Pairs = &[(1, 3, 1), (2, 2, 1), (3, 2, 1), (4, 1, 1)];
    let held = pair(HELD);
    assert_eq!(blocking_pairs(&roster, &held), []);
    assert_eq!(degree(&roster, &held, Side::Stands, 2), 2);
    let by_strict = exchanged(
        &roster,
        HELD,
        &[(1, 3, 1), (2, 2, 1), (4, 1, 1)],
        &[(1, 2, 1), (2, 1, 1)],
    );
    let by_tied = exchanged(
        &roster,
        HELD,
        &[(1, 3, 1), (3, 2, 1), (4, 1, 1)],
        &[(1, 2, 1), (3, 1, 1)],
    );
    assert_eq!(plan_vote(&roster, &held, &by_strict), 1);
    assert_eq!(plan_vote(&roster, &held, &by_tied), 0);
}

/// Claim 3.7, case 1, with all quotas one: stand 2 strictly prefers the pair
/// 2-2, which has no arrow, to the arrow that comes in from surveyor 3, and the
/// path's vote is above zero. By case 2 it is not.
#[test]
fn claim_3_7_case_1_counts_a_vote_too_few() {
    let roster = roster_of(
        [
            node(1, &[1, 2], &[]),
            node(1, &[1, 2], &[]),
            node(1, &[2, 3], &[]),
        ],
        [
            node(1, &[], &[1, 2]),
            node(1, &[1, 2], &[3]),
            node(1, &[3], &[]),
        ],
    );
    assert_eq!(properties(&roster)[..5], [YES, YES, YES, YES, NO]);
    const HELD: Pairs = &[(1, 1, 1), (2, 2, 1), (3, 3, 1)];
    let held = plan(&roster, HELD);
    assert_eq!(blocking_pairs(&roster, &held), []);
    let mut state = State::new(&roster);
    let picture = state.picture();
    let index = |pairs: Pairs| plan(&roster, pairs).indices()[0];
    assert_eq!(
        picture.first_named(RULES[4].names),
        Some(index(&[(2, 2, 1)]))
    );
    assert!(picture.has_arrow_from(Side::Surveyors, index(&[(3, 2, 1)])));
    assert!(picture.has_arrow_from(Side::Stands, index(&[(1, 2, 1)])));
    let by_case_1 = exchanged(&roster, HELD, HELD, &[(3, 2, 1), (2, 1, 1)]);
    let by_case_2 = exchanged(&roster, HELD, &HELD[..2], &[(1, 2, 1), (2, 1, 1)]);
    assert_eq!(plan_vote(&roster, &held, &by_case_1), 1);
    assert_eq!(plan_vote(&roster, &held, &by_case_2), -1);
}

/// Claim 3.7 with parallel pairs: an arrow between the same two ends need not be
/// in the plan, and here every arrow outside the plan is one.
#[test]
fn claim_3_7_looks_for_another_surveyor() {
    let roster = parallel(3);
    assert_eq!(properties(&roster)[..5], [YES, YES, YES, YES, NO]);
    let held = plan(&roster, &[(1, 1, 3)]);
    assert_eq!(blocking_pairs(&roster, &held), []);
    let mut state = State::new(&roster);
    let picture = state.picture();
    let arrows = picture.arrows_in(Side::Stands, 0).collect::<Plan>();
    assert_eq!(arrows, plan(&roster, &[(1, 1, 1), (1, 1, 2)]));
    assert_eq!(picture.arrows_out(Side::Stands, 0), 0);
    assert_eq!(picture.first_named(RULES[4].names), Some(2));
    assert_eq!(plan_vote(&roster, &held, &plan(&roster, &[(1, 1, 2)])), -1);
}

/// The forward chain of section 5: with rules 1 to 5 silent a strong plan has
/// more pairs at a firm stand than it sends arrows, and every arrow into it.
#[test]
fn all_arrows_into_a_stand_may_be_in_the_strong_plan() {
    let roster = roster_of(
        [
            node(1, &[2, 1], &[]),
            node(1, &[2, 1], &[]),
            node(1, &[1], &[]),
            node(1, &[1], &[]),
        ],
        [node(3, &[1, 2], &[3, 4]), node(1, &[], &[1, 2])],
    );
    assert_eq!(roster.pairs().len(), 6);
    assert_eq!(rules_that_act(&roster), [6, 7]);
    let strong = plan(&roster, &[(1, 1, 1), (2, 2, 1), (3, 1, 1), (4, 1, 1)]);
    let mut state = State::new(&roster);
    let picture = state.picture();
    assert!(!picture.is_loose(0));
    assert_eq!(degree(&roster, &strong, Side::Stands, 1), 3);
    assert_eq!(picture.arrows_out(Side::Stands, 0), 2);
    let arrows_in = picture.arrows_in(Side::Stands, 0).collect::<Plan>();
    assert_eq!(arrows_in, plan(&roster, &[(3, 1, 1), (4, 1, 1)]));
    assert!(arrows_in.indices().iter().all(|&pair| strong.holds(pair)));
    assert_eq!(strongly_popular(&roster), [strong]);
}
