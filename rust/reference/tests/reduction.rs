//! Diaries worked out by hand, where P1 to P10 leave a rule or a part of one
//! untouched.

mod common;

use common::{roster, Bytes, Pairs};
use reference::reduction::{reduce, Fate, State, Step};
use reference::roster::Side;

/// A record of the diary: fate, surveyor, stand, shift, rule.
type Record = (Fate, u8, u8, u8, u8);

/// A roster, its diary and the pairs left.
struct Case {
    name: &'static str,
    file: Bytes,
    diary: &'static [Record],
    left: Pairs,
}

/// The four pairs of two surveyors and two stands.
const ALL_FOUR: Pairs = &[(1, 1, 1), (1, 2, 1), (2, 1, 1), (2, 2, 1)];

const CASES: [Case; 6] = [
    // Stand 2 would rather have 1 and stand 1 rather 2, as in P6; surveyor 1
    // also has stand 3, which it likes least. Stand 2's arrow strikes it.
    Case {
        name: "rule 2 at a surveyor",
        file: &[
            2, 1, 1, 3, 1, 1, 1, 5, 0, 3, 1, 1, 2, 1, 3, 1, 2, 2, 1, 1, 1, 5, 0, 2, 0, 2, 1, 1, 1,
            2, 0, 1, 1, 2, 1, 1, 0, 1, 1,
        ],
        diary: &[(Fate::Strike, 1, 3, 1, 2)],
        left: ALL_FOUR,
    },
    // P6 with a surveyor 3 whom stand 1 likes least. Surveyor 1's arrow
    // strikes it.
    Case {
        name: "rule 2 at a stand",
        file: &[
            3, 1, 1, 1, 2, 1, 1, 5, 0, 2, 1, 1, 2, 1, 2, 2, 1, 1, 1, 1, 1, 1, 5, 0, 3, 0, 2, 1, 1,
            1, 3, 1, 2, 0, 1, 1, 2, 1,
        ],
        diary: &[(Fate::Strike, 3, 1, 1, 2)],
        left: ALL_FOUR,
    },
    // The same with surveyors 1 and 3 tied: neither is strictly better.
    Case {
        name: "rule 2 does not strike a tied pair",
        file: &[
            3, 1, 1, 1, 2, 1, 1, 5, 0, 2, 1, 1, 2, 1, 2, 2, 1, 1, 1, 1, 1, 1, 5, 0, 1, 2, 2, 1, 1,
            1, 3, 1, 2, 0, 1, 1, 2, 1,
        ],
        diary: &[
            (Fate::Fix, 3, 1, 1, 6),
            (Fate::Strike, 1, 1, 1, 2),
            (Fate::Fix, 1, 2, 1, 1),
            (Fate::Strike, 2, 1, 1, 2),
            (Fate::Strike, 2, 2, 1, 2),
        ],
        left: &[],
    },
    // Surveyor 1 ranks stand 3; surveyor 2 ranks 3, 2, 1. Stand 1 ranks 2,
    // stand 2 has the tie of 2 alone and is loose, stand 3 ties 1 and 2. N(2)
    // is 2-1 and 2-2, one too many.
    Case {
        name: "rule 4 with a loose stand",
        file: &[
            2, 1, 1, 3, 2, 1, 1, 4, 0, 1, 3, 1, 3, 3, 1, 2, 1, 1, 1, 4, 0, 1, 0, 2, 1, 0, 1, 2, 1,
            0, 2, 1, 1, 2, 1,
        ],
        diary: &[
            (Fate::Strike, 2, 1, 1, 4),
            (Fate::Fix, 1, 3, 1, 6),
            (Fate::Strike, 2, 3, 1, 2),
            (Fate::Fix, 2, 2, 1, 3),
        ],
        left: &[],
    },
    // Both surveyors rank 2, 1; stand 1 ranks 1, 2 and stand 2 ties them. No
    // arrow goes along 2-1, and stand 1 is firm.
    Case {
        name: "rule 5",
        file: &[
            2, 1, 1, 2, 1, 1, 4, 0, 2, 2, 1, 1, 1, 2, 2, 1, 1, 1, 4, 0, 2, 0, 1, 1, 2, 1, 0, 2, 1,
            1, 2, 1,
        ],
        diary: &[
            (Fate::Strike, 2, 1, 1, 5),
            (Fate::Fix, 2, 2, 1, 6),
            (Fate::Strike, 1, 2, 1, 2),
            (Fate::Fix, 1, 1, 1, 1),
        ],
        left: &[],
    },
    // Surveyors 1 and 3 rank 1, 2 and surveyor 2 ranks 2, 1. Stand 1 ranks 2
    // before the tie of 1 and 3; stand 2 of quota 2 ranks 3, 1 before 2.
    Case {
        name: "rule 7, then pairs are left",
        file: &[
            3, 1, 1, 1, 2, 1, 2, 6, 0, 2, 1, 1, 2, 1, 2, 2, 1, 1, 1, 2, 1, 1, 2, 1, 6, 0, 1, 2, 2,
            1, 1, 1, 3, 1, 2, 1, 3, 1, 1, 1, 2, 1,
        ],
        diary: &[(Fate::Fix, 3, 2, 1, 7), (Fate::Strike, 3, 1, 1, 2)],
        left: ALL_FOUR,
    },
];

#[test]
fn diaries_worked_out_by_hand() {
    for case in &CASES {
        let roster = roster(case.file);
        let outcome = reduce(&roster);
        let ends = |pair: usize| {
            let pair = roster.pairs()[pair];
            (pair.surveyor, pair.stand, pair.shift)
        };
        let record = |step: &Step| {
            let (surveyor, stand, shift) = ends(step.pair);
            (step.fate, surveyor, stand, shift, step.rule)
        };
        let diary: Vec<Record> = outcome.diary.iter().map(record).collect();
        assert_eq!(diary, case.diary, "{}", case.name);
        let left: Vec<(u8, u8, u8)> = outcome.left.iter().map(|&pair| ends(pair)).collect();
        assert_eq!(left, case.left, "{}", case.name);
    }
}

/// The cut changes no step: a node whose quota reaches its remaining pairs
/// sends arrows along all its strict ones, with or without it. So only the
/// quotas themselves can tell whether it was made.
#[test]
fn quotas_are_cut_before_each_step() {
    // Surveyors 1 and 2 of quota 3 and 1 have stand 1 of quota 8, which ties
    // them.
    let roster = roster(&[
        2, 3, 1, 1, 8, 2, 0, 1, 1, 1, 1, 1, 1, 2, 0, 0, 2, 1, 1, 2, 1,
    ]);
    let mut state = State::new(&roster);
    let quotas = |state: &mut State| {
        let state = state.picture().state;
        let quota = |(side, node)| state.quota(side, node);
        [
            (Side::Surveyors, 0),
            (Side::Surveyors, 1),
            (Side::Stands, 0),
        ]
        .map(quota)
    };
    assert_eq!(quotas(&mut state), [1, 1, 2]);
    let strike = Step {
        fate: Fate::Strike,
        pair: 0,
        rule: 2,
    };
    state.apply(strike);
    assert_eq!(quotas(&mut state), [0, 1, 1]);
}
