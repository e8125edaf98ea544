//! The cases P1 to P10 of document 01, and cases with several shifts.

mod common;

use common::{
    entries, plan, roster, Bytes, Pairs, P1, P10, P2, P3, P4, P5, P6, P7, P8, P9, SHIFTS,
    SHIFTS_AGREED, SHIFTS_CROSSED, SHIFTS_TIED,
};
use reference::blocking::blocking_pairs;
use reference::plans::{strongly_popular, verdict, Rival, Verdict};
use reference::program;
use reference::roster::Side;
use reference::votes::{node_vote, plan_vote};

/// The name, the roster and what the program prints for it.
const PRINTED: [(&str, Bytes, &str); 10] = [
    ("P1", P1, "plan 0\n"),
    ("P2", P2, "strike 1 1 1 2\nplan 0\n"),
    ("P3", P3, "fix 1 1 1 1\nstrike 2 1 1 2\nplan 1\n1 1 1\n"),
    (
        "P4",
        P4,
        "fix 1 1 1 6\nstrike 2 1 1 2\nnone rivalled 0\ncandidate 1\n1 1 1\nrival 1\n2 1 1\n",
    ),
    ("P5", P5, "fix 1 1 1 3\nfix 2 1 1 3\nplan 2\n1 1 1\n2 1 1\n"),
    ("P6", P6, "none left 4\n1 1 1\n1 2 1\n2 1 1\n2 2 1\n"),
    (
        "P7",
        P7,
        "fix 1 1 1 1\nfix 2 1 1 1\nstrike 3 1 1 2\nstrike 4 1 1 2\nplan 2\n1 1 1\n2 1 1\n",
    ),
    (
        "P8",
        P8,
        "fix 1 1 1 1\nfix 2 1 1 1\nfix 3 1 1 1\nplan 3\n1 1 1\n2 1 1\n3 1 1\n",
    ),
    (
        "P9",
        P9,
        "fix 1 1 1 1\nfix 2 1 1 1\nstrike 3 1 1 2\nplan 2\n1 1 1\n2 1 1\n",
    ),
    (
        "P10",
        P10,
        "fix 1 2 1 7\nstrike 1 1 1 2\nfix 2 1 1 3\nstrike 2 2 1 2\nplan 2\n1 2 1\n2 1 1\n",
    ),
];

/// Rosters with one surveyor and one stand in two shifts, and a tie of one
/// surveyor's two shifts with another's.
const PRINTED_WITH_SHIFTS: [(&str, Bytes, &str); 4] = [
    (
        "two places, two shifts",
        SHIFTS,
        "fix 1 1 1 1\nfix 1 1 3 3\nplan 2\n1 1 1\n1 1 3\n",
    ),
    (
        "they prefer different shifts",
        SHIFTS_CROSSED,
        "none left 2\n1 1 1\n1 1 3\n",
    ),
    (
        "both prefer shift 3",
        SHIFTS_AGREED,
        "fix 1 1 3 1\nstrike 1 1 1 2\nplan 1\n1 1 3\n",
    ),
    (
        "a tie across shifts",
        SHIFTS_TIED,
        "strike 1 1 1 5\nfix 1 1 2 6\nstrike 2 1 1 2\nnone rivalled 0\ncandidate 1\n1 1 2\nrival 1\n2 1 1\n",
    ),
];

#[test]
fn the_program_prints_each_case() {
    for (name, file, text) in PRINTED.into_iter().chain(PRINTED_WITH_SHIFTS) {
        let printed = String::from_utf8(program::run(file)).expect("plain text");
        assert_eq!(printed, text, "{name}");
    }
}

#[test]
fn strong_plans_are_the_stated_ones() {
    let cases: [(&str, Bytes, Option<Pairs>); 11] = [
        ("P1", P1, Some(&[])),
        ("P2", P2, Some(&[])),
        ("P3", P3, Some(&[(1, 1, 1)])),
        ("P4", P4, None),
        ("P5", P5, Some(&[(1, 1, 1), (2, 1, 1)])),
        ("P6", P6, None),
        ("P10", P10, Some(&[(1, 2, 1), (2, 1, 1)])),
        ("two shifts", SHIFTS, Some(&[(1, 1, 1), (1, 1, 3)])),
        ("crossed", SHIFTS_CROSSED, None),
        ("agreed", SHIFTS_AGREED, Some(&[(1, 1, 3)])),
        ("tied", SHIFTS_TIED, None),
    ];
    for (name, file, strong) in cases {
        let roster = roster(file);
        let expected: Vec<_> = strong.iter().map(|pairs| plan(&roster, pairs)).collect();
        assert_eq!(strongly_popular(&roster), expected, "{name}");
    }
}

#[test]
fn a_stand_votes_by_its_worst_pairing() {
    let cases: [(&str, Bytes, Bytes, Bytes, i16); 5] = [
        ("P7", P7, &[1, 3], &[2, 4], 0),
        ("P7 reversed", P7, &[2, 4], &[1, 3], -2),
        ("P8", P8, &[1], &[2, 3], 0),
        ("P9", P9, &[2, 3], &[1, 2], -1),
        ("P9 reversed", P9, &[1, 2], &[2, 3], 1),
    ];
    for (name, file, mine, theirs, vote) in cases {
        let roster = roster(file);
        let stand = roster.node(Side::Stands, 1);
        assert_eq!(
            node_vote(stand, &entries(mine), &entries(theirs)),
            vote,
            "{name}"
        );
    }
}

#[test]
fn plans_vote_as_stated() {
    let p3 = roster(P3);
    let (own, other) = (plan(&p3, &[(1, 1, 1)]), plan(&p3, &[(2, 1, 1)]));
    assert_eq!(plan_vote(&p3, &own, &other), 1);
    assert_eq!(plan_vote(&p3, &other, &own), -1);
}

#[test]
fn the_tie_makes_both_plans_popular() {
    let p4 = roster(P4);
    let (first, second) = (plan(&p4, &[(1, 1, 1)]), plan(&p4, &[(2, 1, 1)]));
    for (own, other) in [(&first, &second), (&second, &first)] {
        let rival = Rival {
            plan: other.clone(),
            vote: 0,
        };
        assert_eq!(verdict(&p4, own), Verdict::Popular(rival));
    }
}

#[test]
fn the_empty_plan_is_beaten_where_a_pair_fits() {
    let p3 = roster(P3);
    let rival = Rival {
        plan: plan(&p3, &[(2, 1, 1)]),
        vote: -2,
    };
    assert_eq!(verdict(&p3, &plan(&p3, &[])), Verdict::Beaten(rival));
}

#[test]
fn a_plan_without_blocking_pairs_need_not_be_strong() {
    let cases: [(&str, Bytes, Pairs); 3] = [
        ("P4", P4, &[(1, 1, 1)]),
        ("P6 by surveyors", P6, &[(1, 1, 1), (2, 2, 1)]),
        ("P6 by stands", P6, &[(1, 2, 1), (2, 1, 1)]),
    ];
    for (name, file, pairs) in cases {
        let roster = roster(file);
        let plan = plan(&roster, pairs);
        assert_eq!(blocking_pairs(&roster, &plan), [], "{name}");
        assert_ne!(verdict(&roster, &plan), Verdict::Strong, "{name}");
    }
}

/// Two plans of one surveyor and one stand in two shifts.
#[test]
fn shifts_vote_as_entries() {
    let cases = [
        ("they draw", SHIFTS_CROSSED, [0, 0]),
        ("both prefer shift 3", SHIFTS_AGREED, [-2, 2]),
        // with quotas 2 a place is empty on both sides
        ("beside an empty place", SHIFTS, [0, 0]),
    ];
    for (name, file, votes) in cases {
        let roster = roster(file);
        let [first, third] = [1, 3].map(|shift| plan(&roster, &[(1, 1, shift)]));
        let against = [(&first, &third), (&third, &first)];
        let both = against.map(|(own, other)| plan_vote(&roster, own, other));
        assert_eq!(both, votes, "{name}");
    }
    // a shared shift faces itself
    let roster = roster(SHIFTS);
    let both = plan(&roster, &[(1, 1, 1), (1, 1, 3)]);
    let one = plan(&roster, &[(1, 1, 3)]);
    assert_eq!(plan_vote(&roster, &both, &one), 2);
    assert_eq!(plan_vote(&roster, &one, &both), -2);
}
