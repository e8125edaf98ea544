//! Comparison, blocking pairs and the program's text.

mod common;

use common::{
    plan, roster, Bytes, Pairs, P2, P3, P4, P7, P7_TWICE, SHIFTS, SHIFTS_AGREED, SHIFTS_CROSSED,
};
use reference::blocking::{blocking_pairs, first_blocking_pair};
use reference::compare::{compare, Comparison, File, Part, Votes, Winner};
use reference::program;
use reference::refusal::Refusal;

fn part(file: File, range: std::ops::Range<usize>) -> Part {
    Part { file, range }
}

/// A roster, the first and the second file, both votes, who wins and the part.
type Compared = (Bytes, Bytes, Bytes, [i16; 2], Winner, Part);

fn votes([first_against_second, second_against_first]: [i16; 2]) -> Votes {
    Votes {
        first_against_second,
        second_against_first,
    }
}

/// Holds comparisons against the stated answers.
fn check_compared<const N: usize>(cases: [Compared; N]) {
    for (file, first, second, both, winner, part) in cases {
        let votes = votes(both);
        let comparison = compare(&roster(file), first, second);
        let outcome = Ok(votes);
        assert_eq!(
            comparison,
            Comparison { outcome, part },
            "{first:?} {second:?}"
        );
        assert_eq!(votes.winner(), winner, "{first:?} {second:?}");
    }
}

#[test]
fn the_winner_is_a_part_of_its_own_file() {
    check_compared([
        (
            P3,
            &[1, 1, 1, 1],
            &[1, 2, 1, 1],
            [1, -1],
            Winner::First,
            part(File::First, 1..4),
        ),
        (
            P3,
            &[1, 2, 1, 1],
            &[1, 1, 1, 1],
            [-1, 1],
            Winner::Second,
            part(File::Second, 1..4),
        ),
        (
            P3,
            &[0],
            &[1, 2, 1, 1],
            [-2, 2],
            Winner::Second,
            part(File::Second, 1..4),
        ),
        (
            P3,
            &[1, 2, 1, 1],
            &[0],
            [2, -2],
            Winner::First,
            part(File::First, 1..4),
        ),
        (
            P7,
            &[2, 1, 1, 1, 2, 1, 1],
            &[1, 3, 1, 1],
            [3, -3],
            Winner::First,
            part(File::First, 1..7),
        ),
    ]);
}

#[test]
fn a_plan_wins_by_the_vote_against_it() {
    // its own vote is zero
    let plans: [Bytes; 2] = [&[2, 1, 1, 1, 3, 1, 1], &[2, 2, 1, 1, 4, 1, 1]];
    check_compared([
        (
            P7,
            plans[0],
            plans[1],
            [0, -2],
            Winner::First,
            part(File::First, 1..7),
        ),
        (
            P7,
            plans[1],
            plans[0],
            [-2, 0],
            Winner::Second,
            part(File::Second, 1..7),
        ),
    ]);
}

#[test]
fn both_and_neither_have_no_part() {
    let none = || part(File::First, 0..0);
    let plans: [Bytes; 2] = [
        &[4, 1, 1, 1, 3, 1, 1, 6, 2, 1, 8, 2, 1],
        &[4, 2, 1, 1, 4, 1, 1, 5, 2, 1, 7, 2, 1],
    ];
    let tied: Bytes = &[1, 1, 1, 1];
    check_compared([
        (P7_TWICE, plans[0], plans[1], [-2, -2], Winner::Both, none()),
        (P7_TWICE, plans[1], plans[0], [-2, -2], Winner::Both, none()),
        (P4, tied, &[1, 2, 1, 1], [0, 0], Winner::Neither, none()),
        (P4, tied, tied, [0, 0], Winner::Neither, none()),
        (
            P7_TWICE,
            plans[0],
            plans[0],
            [0, 0],
            Winner::Neither,
            none(),
        ),
        (P4, &[0], &[0], [0, 0], Winner::Neither, none()),
    ]);
}

#[test]
fn the_first_file_is_refused_before_the_second() {
    let p3 = roster(P3);
    let cases: [(Bytes, Bytes, Refusal); 4] = [
        (&[1, 1, 1, 1, 0], &[], Refusal::BytesAfterEnd),
        (&[], &[65], Refusal::EndsInsideField),
        (&[0], &[1, 1, 2, 1], Refusal::PairNotInRoster),
        (&[2, 1, 1, 1, 2, 1, 1], &[1, 1, 1, 1], Refusal::QuotaPassed),
    ];
    for (first, second, refusal) in cases {
        let expected = Comparison {
            outcome: Err(refusal),
            part: part(File::First, 0..0),
        };
        assert_eq!(compare(&p3, first, second), expected, "{refusal:?}");
    }
}

#[test]
fn blocking_pairs_of_plans() {
    // One surveyor of quota 1 ranks stands 2 and 1.
    const CHOICE: Bytes = &[
        1, 1, 2, 1, 1, 2, 0, 2, 2, 1, 1, 1, 2, 0, 1, 0, 1, 1, 0, 1, 1, 1,
    ];
    let cases: [(&str, Bytes, Pairs, &[usize]); 9] = [
        ("all may come", P3, &[], &[0, 1]),
        ("the better one may come", P3, &[(2, 1, 1)], &[0]),
        ("the worse one may not", P3, &[(1, 1, 1)], &[]),
        ("a tied one may not", P4, &[(2, 1, 1)], &[]),
        ("quota 0 never blocks", P2, &[], &[]),
        ("the surveyor would change", CHOICE, &[(1, 1, 1)], &[1]),
        ("the surveyor would not", CHOICE, &[(1, 2, 1)], &[]),
        (
            "the worst place is given up",
            P7,
            &[(1, 1, 1), (4, 1, 1)],
            &[1, 2],
        ),
        ("room for one more", P7, &[(4, 1, 1)], &[0, 1, 2]),
    ];
    for (name, file, pairs, blocking) in cases {
        let roster = roster(file);
        let plan = plan(&roster, pairs);
        assert_eq!(blocking_pairs(&roster, &plan), blocking, "{name}");
    }
}

#[test]
fn the_first_blocking_pair() {
    // One surveyor of quota 1 ranks stands 2 and 1.
    const CHOICE: Bytes = &[
        1, 1, 2, 1, 1, 2, 0, 2, 2, 1, 1, 1, 2, 0, 1, 0, 1, 1, 1, 0, 1, 1,
    ];
    // Surveyor 1 ranks 3, 2, 1; surveyor 2, quota 2, ranks 1, 3, 2; stand 1
    // ranks 1, 2; stands 2 and 3 rank 2, 1.
    const TWO: Bytes = &[
        2, 1, 2, 3, 1, 1, 1, 6, 0, 3, 3, 1, 2, 1, 1, 1, 3, 1, 1, 3, 1, 2, 1, 6, 0, 2, 0, 1, 1, 2,
        1, 2, 0, 2, 1, 1, 1, 2, 0, 2, 1, 1, 1,
    ];
    type Numbers = (u8, u8, u8);
    let cases: [(&str, Bytes, Pairs, Option<Numbers>); 10] = [
        ("best in the list", CHOICE, &[], Some((1, 2, 1))),
        (
            "better than the held one",
            CHOICE,
            &[(1, 1, 1)],
            Some((1, 2, 1)),
        ),
        ("none", CHOICE, &[(1, 2, 1)], None),
        ("the lowest surveyor's", TWO, &[], Some((1, 3, 1))),
        ("before a better rank", TWO, &[(2, 3, 1)], Some((1, 2, 1))),
        (
            "the next surveyor's",
            TWO,
            &[(1, 2, 1), (2, 3, 1)],
            Some((2, 1, 1)),
        ),
        ("the shift that is liked best", SHIFTS, &[], Some((1, 1, 3))),
        (
            "one shift beside the other",
            SHIFTS,
            &[(1, 1, 3)],
            Some((1, 1, 1)),
        ),
        (
            "a better shift of the same two",
            SHIFTS_AGREED,
            &[(1, 1, 1)],
            Some((1, 1, 3)),
        ),
        (
            "the stand likes its shift",
            SHIFTS_CROSSED,
            &[(1, 1, 1)],
            None,
        ),
    ];
    for (name, file, pairs, expected) in cases {
        let roster = roster(file);
        let pair = first_blocking_pair(&roster, &plan(&roster, pairs));
        assert_eq!(
            pair.map(|pair| (pair.surveyor, pair.stand, pair.shift)),
            expected,
            "{name}"
        );
    }
}

fn printed(input: &[u8]) -> String {
    String::from_utf8(program::run(input)).expect("plain text")
}

#[test]
fn refusals_are_printed_alone() {
    let cases: [(Bytes, &str); 5] = [
        (&[], "refused 1 form\n"),
        (&[33], "refused 2 form\n"),
        (&[1, 9], "refused 3 content\n"),
        (&[1, 1, 1, 1, 1, 0, 1, 1, 4], "refused 18 content\n"),
        (&[0, 0, 0, 0, 0, 0, 0], "refused 9 form\n"),
    ];
    for (input, text) in cases {
        assert_eq!(printed(input), text, "{input:?}");
    }
}

#[test]
fn a_vote_below_zero_has_a_minus_sign() {
    // Surveyor 1 of quota 2 ranks 2, 1 and surveyor 2 ranks 1, 2; stand 1 ties
    // them and stand 2 ranks 2, 1.
    let input = [
        2, 2, 1, 2, 1, 1, 4, 0, 2, 2, 1, 1, 1, 2, 1, 1, 2, 1, 4, 0, 0, 2, 1, 1, 2, 1, 2, 0, 2, 1,
        1, 1,
    ];
    let diary = "fix 1 2 1 6\nstrike 2 2 1 2\nfix 1 1 1 6\nstrike 2 1 1 2\n";
    let ending = "none rivalled -1\ncandidate 2\n1 1 1\n1 2 1\nrival 2\n1 1 1\n2 2 1\n";
    assert_eq!(printed(&input), format!("{diary}{ending}"));
}

#[test]
fn a_long_input_is_read_like_its_front() {
    // 32 surveyors and 32 stands without pairs, then zeros: bytes after the end.
    let mut long = vec![0; 5_000];
    long[0] = 32;
    assert_eq!(printed(&long), "refused 9 form\n");
    assert_eq!(printed(&long[..4_263]), "refused 9 form\n");
    let end = 1 + 32 + 1 + 2 + 32 + 2;
    assert_eq!(printed(&long[..end]), "plan 0\n");
}
