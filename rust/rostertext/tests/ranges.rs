//! Ranges as text: what a person writes, the problems in it, and random ranges from
//! bytes to text and back.

use reference::limits::MAX_RANK;
use reference::random::{self, Random};
use reference::ranges::{self, roster_ranks, settled, Range};
use reference::roster::{self, Roster};
use rostertext::{pack_ranges, parse, parse_ranges, print_ranges, unpack_ranges};

/// The program's roster, and one with shifts and a tie.
const PLAIN: &str = "surveyor 1: 1\nsurveyor 2: 1\nstand 1: 1 2";
const SHIFTS: &str = "surveyor 1 quota 2: 1/3 1\nstand 1 quota 2: 1 [1/3]";

fn roster(text: &str) -> Roster {
    parse(text).expect("a roster")
}

fn bytes(roster_text: &str, text: &str) -> Vec<u8> {
    let ranges = parse_ranges(&roster(roster_text), text).expect("ranges");
    ranges::write(&ranges)
}

#[test]
fn as_a_person_writes_them() {
    let text = "# early in the season\n\nstand 1: 1=1..4 2=2..3\nsurveyor 1: 1=1..2 # or second\n";
    assert_eq!(bytes(PLAIN, text), [1, 2, 1, 1, 1, 4, 2, 3]);
    // an entry that is not named has its rank
    assert_eq!(bytes(PLAIN, ""), [1, 1, 1, 1, 1, 1, 2, 2]);
    assert_eq!(bytes(PLAIN, "stand 1: 2=5"), [1, 1, 1, 1, 1, 1, 5, 5]);
    assert_eq!(
        bytes(PLAIN, "stand 1:\nstand 1: 2=2..32"),
        [1, 1, 1, 1, 1, 1, 2, 32]
    );
    assert_eq!(
        bytes(SHIFTS, "surveyor 1: 1=1..2 1/3=2"),
        [2, 2, 1, 2, 1, 1, 2, 2]
    );
    assert_eq!(
        bytes(SHIFTS, "stand 1: 1/3=1..3 1/1=2"),
        [1, 1, 2, 2, 2, 2, 1, 3]
    );
}

#[test]
fn each_problem_has_its_line_and_words() {
    for (text, words) in [
        (
            "crew 1: 1=1",
            "line 1: a line starts with 'surveyor' or 'stand', not with 'crew'",
        ),
        (
            "\nstand : 1=1",
            "line 2: ':' is no number, behind the line's first word",
        ),
        (
            "stand 1 1=1",
            "line 1: '1=1' stands where a quota or a colon belongs",
        ),
        (
            "stand 1: 1",
            "line 1: '1' has no range behind it, as in '1=2..4'",
        ),
        (
            "stand 1: 1=",
            "line 1: a number is missing in a range of ranks",
        ),
        (
            "stand 1: 1=2..",
            "line 1: a number is missing in a range of ranks",
        ),
        (
            "stand 1: 1=2..x",
            "line 1: 'x' is no number, in a range of ranks",
        ),
        (
            "stand 1: 1=0..2",
            "line 1: 0 to 2 is no range: ranks go from 1 to 32, the lower one first",
        ),
        (
            "stand 1: 1=3..2",
            "line 1: 3 to 2 is no range: ranks go from 1 to 32, the lower one first",
        ),
        (
            "stand 1: 1=1..33",
            "line 1: 1 to 33 is no range: ranks go from 1 to 32, the lower one first",
        ),
        (
            "stand 1: 3=1",
            "line 1: stand 1 does not list surveyor 3 in the roster",
        ),
        (
            "stand 2: 1=1",
            "line 1: stand 2 does not list surveyor 1 in the roster",
        ),
        (
            "surveyor 1: 1/2=1",
            "line 1: surveyor 1 does not list stand 1 in shift 2 in the roster",
        ),
        (
            "surveyor 1: 1/4=1",
            "line 1: shift 4 is listed, but the shifts are numbered from 1 to 3",
        ),
        (
            "stand 1: 1=1\nstand 1: 2=1 1=2",
            "line 2: surveyor 1 stands twice in the list",
        ),
    ] {
        let problem = parse_ranges(&roster(PLAIN), text).expect_err(words);
        assert_eq!(problem.to_string(), words, "{text:?}");
    }
}

#[test]
fn files_of_both_forms() {
    let file = roster::write(&roster(PLAIN));
    let text = b"surveyor 1: 1=1..2\nstand 1: 1=1..4 2=2..3\n";
    let packed = pack_ranges(&file, text).expect("ranges");
    assert_eq!(packed, [1, 2, 1, 1, 1, 4, 2, 3]);
    assert_eq!(unpack_ranges(&file, &packed).expect("ranges"), text);
    assert_eq!(
        unpack_ranges(&file, &[1, 1, 1, 1, 1, 1, 2, 2]),
        Ok(Vec::new())
    );
    let refused = unpack_ranges(&file, &[0, 1]).expect_err("low 0");
    assert_eq!(
        refused,
        "the input is no ranges: refused 21 content, a range's low rank is 0 or above its high one, or its high rank is above 32"
    );
    assert_eq!(
        pack_ranges(&[1, 9], b"").expect_err("no roster"),
        "the input is no roster: refused 3 content, a quota is above 8, or the quotas of one side are above 64 together"
    );
    assert_eq!(
        pack_ranges(&file, &[0xff]),
        Err("the input is no text".into())
    );
}

#[test]
fn bytes_to_text_and_back() {
    let mut random = Random::new(65);
    for _ in 0..1_500 {
        let shape = random::any_shape(&mut random);
        let roster = random::roster(&mut random, &shape);
        let unsettled = [0, 10, 60, 100][random.below(4)];
        let any = |rank: u8| {
            if !random.chance(unsettled) {
                return Range::settled(rank);
            }
            let low = random.within(&(1..=MAX_RANK));
            let high = random.within(&(low..=MAX_RANK));
            Range { low, high }
        };
        let ranges: Vec<Range> = roster_ranks(&roster).into_iter().map(any).collect();
        let text = print_ranges(&roster, &ranges);
        assert_eq!(parse_ranges(&roster, &text), Ok(ranges.clone()), "{text}");
        assert_eq!(text.is_empty(), ranges == settled(&roster));
    }
}
