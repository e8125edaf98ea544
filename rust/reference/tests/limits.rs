//! The limits of document 01, each met and passed by one.

mod common;

use common::{entries, plan, roster, without_pairs};
use reference::desk::{DIARY_RECORDS, LEFT_BYTES};
use reference::limits::{MAX_DAY_BYTES, MAX_INPUT_BYTES, MAX_PLAN_BYTES, MAX_ROSTER_BYTES};
use reference::plan;
use reference::reduction::reduce;
use reference::refusal::Refusal;
use reference::roster::{read, write, Entry, Side};
use reference::votes::{node_vote, plan_vote, rank, rank_vote};

/// The number under which a roster is refused, if it is.
fn refused(file: &[u8]) -> Option<u8> {
    read(file).err().map(Refusal::number)
}

/// The entries of a node of the longest roster, which has the 11 nodes from some
/// number on in all three shifts, but the last of them in two.
fn eleven_from(number: u8) -> Vec<Entry> {
    let entry = |place: u8| Entry {
        number: (number - 1 + place / 3) % 32 + 1,
        shift: place % 3 + 1,
    };
    (0..32).map(entry).collect()
}

/// The longest roster: 32 by 32 nodes of quota 2, each with 32 entries, and each
/// stand ties the last 16 of its list.
fn longest() -> Vec<u8> {
    let quotas = || std::iter::once(32).chain([2; 32]);
    let mut file: Vec<u8> = quotas().chain(quotas()).collect();
    file.extend([0, 4]);
    for surveyor in 1..=32 {
        file.push(32);
        file.extend(eleven_from(surveyor).into_iter().flat_map(Entry::bytes));
    }
    file.extend([0, 4]);
    for stand in 1..=32 {
        file.extend([16, 16]);
        file.extend(longest_stand(stand).into_iter().flat_map(Entry::bytes));
    }
    file
}

/// The list of a stand of the longest roster: its own surveyor first, then those
/// before it.
fn longest_stand(stand: u8) -> Vec<Entry> {
    let mut entries = Vec::new();
    for back in 0..32 {
        let surveyor = (stand + 31 - back) % 32 + 1;
        let own = eleven_from(surveyor).into_iter();
        let here = own.filter(|entry| entry.number == stand);
        entries.extend(here.map(|entry| Entry {
            number: surveyor,
            ..entry
        }));
    }
    entries[16..].sort_unstable();
    entries
}

/// Every surveyor of the longest roster with the stand of the same number in
/// shifts 1 and 3, so that all quotas are filled.
fn longest_plan() -> Vec<u8> {
    let mut file = vec![64];
    for number in 1..=32_u8 {
        file.extend([number, number, 1]);
        file.extend([number, number, 3]);
    }
    file
}

#[test]
fn quotas_and_counts() {
    let eights = [8; 8];
    let past = |last: u8| [8, 8, 8, 8, 8, 8, 8, 8, last];
    let cases: [(&str, Vec<u8>, Option<u8>); 14] = [
        ("quota 8", without_pairs(&[8], &[]), None),
        ("quota 9", without_pairs(&[9], &[]), Some(3)),
        ("stand quota 8", without_pairs(&[], &[8]), None),
        ("stand quota 9", without_pairs(&[], &[9]), Some(3)),
        ("sum 64", without_pairs(&eights, &eights), None),
        ("sum 64 and a zero", without_pairs(&past(0), &past(0)), None),
        ("sum 65", without_pairs(&past(1), &[]), Some(3)),
        ("stand sum 65", without_pairs(&[], &past(1)), Some(3)),
        (
            "each side has its own sum",
            without_pairs(&[8; 8], &[2; 32]),
            None,
        ),
        ("32 surveyors", without_pairs(&[1; 32], &[]), None),
        ("33 surveyors", without_pairs(&[1; 33], &[]), Some(2)),
        ("32 stands", without_pairs(&[], &[1; 32]), None),
        ("33 stands", without_pairs(&[], &[1; 33]), Some(2)),
        ("nothing", without_pairs(&[], &[]), None),
    ];
    for (name, file, refusal) in cases {
        assert_eq!(refused(&file), refusal, "{name}");
    }
}

#[test]
fn the_longest_roster() {
    let file = longest();
    assert_eq!(file.len(), 4_262);
    assert_eq!(MAX_ROSTER_BYTES, 4_262);
    let longest = roster(&file);
    assert_eq!(longest.pairs().len(), 1_024);
    assert!(longest.has_parallel_pairs());
    assert_eq!(write(&longest), file);
    assert_eq!((DIARY_RECORDS, LEFT_BYTES), (1_024, 3_072));
}

#[test]
fn a_byte_behind_the_longest_roster() {
    let mut file = longest();
    file.push(0);
    assert_eq!(file.len(), 4_263);
    assert_eq!(MAX_INPUT_BYTES, 4_263);
    assert_eq!(refused(&file), Some(9));
}

#[test]
fn the_longest_plan() {
    let roster = roster(&longest());
    let file = longest_plan();
    assert_eq!(file.len(), 193);
    assert_eq!(MAX_PLAN_BYTES, 193);
    assert_eq!(MAX_DAY_BYTES, 64);
    let full = plan::read(&roster, &file).expect("the longest plan");
    assert_eq!(plan::write(&roster, &full), file);
    let empty = plan(&roster, &[]);
    assert_eq!(plan_vote(&roster, &full, &empty), 128);
    assert_eq!(plan_vote(&roster, &empty, &full), -128);
}

#[test]
fn a_plan_of_65_pairs() {
    let roster = roster(&longest());
    for file in [vec![65], vec![65; 196], vec![255]] {
        let refusal = plan::read(&roster, &file).err();
        assert_eq!(refusal, Some(Refusal::CountAboveLimit), "{file:?}");
    }
}

#[test]
fn long_files_are_read_from_the_left() {
    let mut file = vec![0; 5_000];
    file[0] = 33;
    assert_eq!(refused(&file), Some(2));
    file[0] = 32;
    assert_eq!(refused(&file), Some(9));
}

#[test]
fn section_counts() {
    let cases: [(&str, &[u8], u8); 5] = [
        ("1,024 of none", &[0, 0, 0, 4], 7),
        ("1,025", &[0, 0, 1, 4], 2),
        ("65,535", &[0, 0, 255, 255], 2),
        ("256 is low byte first", &[0, 0, 0, 1], 7),
        ("1,025 for stands", &[0, 0, 0, 0, 1, 4], 2),
    ];
    for (name, file, refusal) in cases {
        assert_eq!(refused(file), Some(refusal), "{name}");
    }
}

/// One surveyor and one stand, with what follows the four quota bytes.
fn one_by_one(rest: &[u8]) -> Option<u8> {
    let mut file = vec![1, 1, 1, 1];
    file.extend(rest);
    refused(&file)
}

#[test]
fn list_lengths() {
    let cases: [(&str, &[u8], Option<u8>); 14] = [
        ("one entry", &[1, 0, 1, 1, 1, 1, 0, 1, 0, 1, 1], None),
        ("a tie of one", &[1, 0, 1, 1, 1, 1, 0, 0, 1, 1, 1], None),
        (
            "more than the other side's count",
            &[3, 0, 3, 1, 2, 1, 1, 1, 3, 3, 0, 1, 2, 1, 3, 1, 1, 1, 2],
            None,
        ),
        ("33", &[2, 0, 33, 1, 1], Some(2)),
        ("32 and the end", &[2, 0, 32], Some(1)),
        ("32 and one entry", &[2, 0, 32, 1, 1], Some(1)),
        ("strict 33", &[1, 0, 1, 1, 1, 2, 0, 33, 0], Some(2)),
        ("tie of 33", &[1, 0, 1, 1, 1, 2, 0, 0, 33], Some(2)),
        ("sum of 33", &[1, 0, 1, 1, 1, 2, 0, 16, 17], Some(2)),
        (
            "sum of 32 and the end",
            &[1, 0, 1, 1, 1, 2, 0, 15, 17],
            Some(1),
        ),
        ("sum of 256", &[1, 0, 1, 1, 1, 1, 0, 255, 1], Some(2)),
        ("200 and the end", &[1, 0, 1, 1, 1, 1, 0, 200], Some(1)),
        ("200 and 0", &[1, 0, 1, 1, 1, 1, 0, 200, 0], Some(2)),
        (
            "33 without a tie length",
            &[1, 0, 1, 1, 1, 2, 0, 33],
            Some(1),
        ),
    ];
    for (name, rest, refusal) in cases {
        assert_eq!(one_by_one(rest), refusal, "{name}");
    }
}

#[test]
fn a_tie_of_one_is_a_tie() {
    let strict = roster(&[1, 1, 1, 1, 1, 0, 1, 1, 1, 1, 0, 1, 0, 1, 1]);
    let tied = roster(&[1, 1, 1, 1, 1, 0, 1, 1, 1, 1, 0, 0, 1, 1, 1]);
    let shares = [&strict, &tied].map(|roster| {
        let list = &roster.node(Side::Stands, 1).list;
        (list.strict.len(), list.tied.len())
    });
    assert_eq!(shares, [(1, 0), (0, 1)]);
    // The strict entry has arrows both ways; the tied one gets none back.
    let rules = [&strict, &tied].map(|roster| reduce(roster).diary[0].rule);
    assert_eq!(rules, [1, 3]);
}

#[test]
fn ranks_reach_from_1_to_33() {
    let longest = roster(&longest());
    let surveyor = &longest.node(Side::Surveyors, 1).list;
    let stand = &longest.node(Side::Stands, 1).list;
    let cases = [
        (surveyor, Some((1, 1)), 1),
        (surveyor, Some((1, 3)), 3),
        (surveyor, Some((2, 1)), 4),
        (surveyor, Some((11, 2)), 32),
        (surveyor, None, 33),
        (stand, Some((1, 1)), 1),
        (stand, Some((28, 1)), 16),
        (stand, Some((28, 2)), 17),
        (stand, Some((23, 2)), 17),
        (stand, None, 33),
    ];
    for (list, place, expected) in cases {
        let place = place.map(|(number, shift)| Entry { number, shift });
        assert_eq!(rank(list, place), expected, "{place:?}");
    }
}

#[test]
fn rank_votes() {
    let cases = [
        (1, 2, 1),
        (2, 1, -1),
        (1, 1, 0),
        (32, 33, 1),
        (33, 32, -1),
        (33, 33, 0),
    ];
    for (a, b, vote) in cases {
        assert_eq!(rank_vote(a, b), vote, "{a} against {b}");
    }
}

#[test]
fn a_stand_of_quota_8() {
    let mut file = vec![8];
    file.extend([1; 8]);
    file.extend([1, 8, 8, 0]);
    file.extend([1, 1, 1].repeat(8));
    file.extend([8, 0, 8, 0]);
    file.extend((1..=8).flat_map(|surveyor| [surveyor, 1]));
    let roster = roster(&file);
    let stand = roster.node(Side::Stands, 1);
    let cases: [(&[u8], &[u8], i16); 5] = [
        (&[1, 2, 3, 4, 5, 6, 7, 8], &[], 8),
        (&[], &[1, 2, 3, 4, 5, 6, 7, 8], -8),
        (&[1, 2, 3, 4], &[5, 6, 7, 8], 4),
        (&[1, 3, 5, 7], &[2, 4, 6, 8], -2),
        (&[1, 2, 3, 4, 5, 6, 7], &[2, 3, 4, 5, 6, 7, 8], 1),
    ];
    for (mine, theirs, vote) in cases {
        assert_eq!(
            node_vote(stand, &entries(mine), &entries(theirs)),
            vote,
            "{mine:?} {theirs:?}"
        );
    }
}
