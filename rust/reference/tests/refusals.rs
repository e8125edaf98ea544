//! Every refusal of a file, and which of two comes first.

mod common;

use common::{roster, Bytes, NUMBERS, P10, P3, P4, P6, SHIFTS};
use reference::changes::join;
use reference::plan;
use reference::refusal::{Group, Refusal};
use reference::roster::read;

/// A case of a table: a name, a file, and the number of its refusal.
type Case = (&'static str, Bytes, u8);

/// Roster files by the refusal they meet.
#[rustfmt::skip]
const ROSTERS: &[Case] = &[
    ("no bytes", &[], 1),
    ("a quota is missing", &[2, 1], 1),
    ("no stands", &[0], 1),
    ("half a section count", &[0, 0, 0], 1),
    ("no section of stands' lists", &[0, 0, 0, 0], 1),
    ("half a section count of stands", &[0, 0, 0, 0, 0], 1),
    ("a length is missing", &[1, 1, 0, 0, 0], 1),
    ("an entry is missing", &[1, 1, 1, 1, 1, 0, 1], 1),
    ("a shift is missing", &[1, 1, 1, 1, 1, 0, 1, 1], 1),
    ("a tie length is missing", &[0, 1, 1, 0, 0, 0, 0, 0], 1),
    ("the last shift is missing", &[2, 1, 1, 1, 1, 2, 0, 1, 1, 1, 1, 1, 1, 2, 0, 2, 0, 1, 1, 2], 1),
    ("the last entry is missing", &[2, 1, 1, 1, 1, 2, 0, 1, 1, 1, 1, 1, 1, 2, 0, 2, 0, 1, 1], 1),
    ("33 surveyors", &[33], 2),
    ("33 stands", &[0, 33], 2),
    ("1,025 entries", &[0, 0, 1, 4], 2),
    ("a long list", &[1, 1, 1, 1, 2, 0, 33, 1, 1, 1, 1], 2),
    ("a long list without stands", &[1, 1, 0, 1, 0, 33, 1, 1], 2),
    ("a long strict list", &[0, 1, 1, 0, 0, 1, 0, 33, 0, 1, 1], 2),
    ("a long sum", &[1, 1, 1, 1, 1, 0, 1, 1, 1, 2, 0, 17, 16, 1, 1, 1, 1], 2),
    ("quota 9", &[1, 9], 3),
    ("stand quota 9", &[0, 1, 9], 3),
    ("quota 255", &[2, 1, 255], 3),
    ("sum 65", &[9, 8, 8, 8, 8, 8, 8, 8, 8, 1], 3),
    ("stand sum 65", &[0, 9, 8, 8, 8, 8, 8, 8, 8, 8, 1], 3),
    ("an entry without stands", &[1, 1, 0, 1, 0, 1, 1, 1], 4),
    ("a strict entry without surveyors", &[0, 1, 1, 0, 0, 1, 0, 1, 0, 1, 1], 4),
    ("entry 0", &[1, 1, 1, 1, 1, 0, 1, 0, 1], 4),
    ("entry above", &[1, 1, 1, 1, 1, 0, 1, 2, 1], 4),
    ("strict entry 0", &[1, 1, 1, 1, 1, 0, 1, 1, 1, 1, 0, 1, 0, 0, 1], 4),
    ("strict entry above", &[1, 1, 1, 1, 1, 0, 1, 1, 1, 1, 0, 1, 0, 2, 1], 4),
    ("tied entry 0", &[1, 1, 1, 1, 1, 0, 1, 1, 1, 1, 0, 0, 1, 0, 1], 4),
    ("tied entry above", &[1, 1, 1, 1, 1, 0, 1, 1, 1, 1, 0, 0, 1, 255, 1], 4),
    ("shift 0", &[1, 1, 1, 1, 1, 0, 1, 1, 0], 18),
    ("shift 4", &[1, 1, 1, 1, 1, 0, 1, 1, 4], 18),
    ("shift 255", &[1, 1, 1, 1, 1, 0, 1, 1, 255], 18),
    ("a later shift 4", &[1, 1, 1, 1, 2, 0, 2, 1, 3, 1, 4], 18),
    ("strict shift 0", &[1, 1, 1, 1, 1, 0, 1, 1, 1, 1, 0, 1, 0, 1, 0], 18),
    ("tied shift 4", &[1, 1, 1, 1, 1, 0, 1, 1, 1, 1, 0, 0, 1, 1, 4], 18),
    ("a stand twice", &[1, 1, 2, 1, 1, 2, 0, 2, 1, 1, 1, 1], 5),
    ("a stand twice, apart", &[1, 1, 3, 1, 1, 1, 3, 0, 3, 1, 1, 2, 1, 1, 1], 5),
    ("a stand twice in shift 3", &[1, 1, 1, 1, 3, 0, 3, 1, 3, 1, 2, 1, 3], 5),
    ("a surveyor twice", &[2, 1, 1, 1, 1, 2, 0, 1, 1, 1, 1, 1, 1, 2, 0, 2, 0, 1, 1, 1, 1], 5),
    ("strict and tied", &[2, 1, 1, 1, 1, 2, 0, 1, 1, 1, 1, 1, 1, 2, 0, 1, 1, 1, 1, 1, 1], 5),
    ("tied twice", &[2, 1, 1, 1, 1, 2, 0, 1, 1, 1, 1, 1, 1, 2, 0, 0, 2, 2, 1, 2, 1], 5),
    ("strict and tied in shift 2", &[1, 1, 1, 1, 1, 0, 1, 1, 2, 2, 0, 1, 1, 1, 2, 1, 2], 5),
    ("a falling tie", &[2, 1, 1, 1, 1, 2, 0, 1, 1, 1, 1, 1, 1, 2, 0, 0, 2, 2, 1, 1, 1], 6),
    ("a tie falls late", &[3, 1, 1, 1, 1, 1, 0, 0, 0, 0, 0, 3, 0, 0, 3, 1, 1, 3, 1, 2, 1], 6),
    ("a tie falls behind strict", &[3, 1, 1, 1, 1, 1, 0, 0, 0, 0, 0, 3, 0, 1, 2, 1, 1, 3, 1, 2, 1], 6),
    ("shifts fall in a tie", &[1, 1, 1, 1, 0, 0, 0, 2, 0, 0, 2, 1, 3, 1, 1], 6),
    ("shifts rise as surveyors fall", &[2, 1, 1, 1, 1, 0, 0, 0, 0, 2, 0, 0, 2, 2, 1, 1, 3], 6),
    ("count too high", &[1, 1, 1, 1, 2, 0, 1, 1, 1], 7),
    ("count too low", &[1, 1, 1, 1, 0, 0, 1, 1, 1], 7),
    ("bytes swapped", &[1, 1, 1, 1, 0, 1, 1, 1, 1], 7),
    ("stands' count too high", &[1, 1, 1, 1, 1, 0, 1, 1, 1, 2, 0, 1, 0, 1, 1], 7),
    ("stands' count too low", &[1, 1, 1, 1, 1, 0, 1, 1, 1, 0, 0, 0, 1, 1, 1], 7),
    ("surveyor alone", &[1, 1, 1, 1, 1, 0, 1, 1, 1, 0, 0, 0, 0], 8),
    ("stand alone", &[1, 1, 1, 1, 0, 0, 0, 1, 0, 1, 0, 1, 1], 8),
    ("tied stand alone", &[1, 1, 1, 1, 0, 0, 0, 1, 0, 0, 1, 1, 1], 8),
    ("different pairs", &[2, 1, 1, 1, 1, 1, 0, 1, 1, 1, 0, 1, 0, 1, 0, 2, 1], 8),
    ("different shifts", &[1, 1, 1, 1, 1, 0, 1, 1, 1, 1, 0, 1, 0, 1, 2], 8),
    ("a shift more", &[1, 1, 1, 1, 2, 0, 2, 1, 1, 1, 3, 1, 0, 1, 0, 1, 3], 8),
    ("shifts exchanged", &[
        2, 1, 1, 1, 1, 2, 0, 1, 1, 1, 1, 1, 2, 2, 0, 2, 0, 1, 2, 2, 1], 8),
    ("a byte behind nothing", &[0, 0, 0, 0, 0, 0, 0], 9),
    ("a byte behind P3", &[2, 1, 1, 1, 1, 2, 0, 1, 1, 1, 1, 1, 1, 2, 0, 2, 0, 1, 1, 2, 1, 0], 9),
    ("two bytes behind", &[1, 1, 0, 0, 0, 0, 0, 0, 7, 7], 9),
];

/// Rosters that could be refused twice; the first refusal wins.
#[rustfmt::skip]
const FIRST_REFUSALS: &[Case] = &[
    ("a count before its quotas", &[33, 9], 2),
    ("a quota before a later missing one", &[2, 9], 3),
    ("a sum before the stands' count", &[9, 8, 8, 8, 8, 8, 8, 8, 8, 8, 33], 3),
    ("a missing quota before the sums of others", &[3, 8, 8], 1),
    ("a quota before a bad list", &[1, 9, 1, 1, 1, 0, 1, 0, 1], 3),
    ("a high section count before a missing list", &[1, 1, 1, 1, 1, 4], 2),
    ("a long list before its missing entries", &[1, 1, 1, 1, 9, 0, 33], 2),
    ("a missing entry before a long list behind it", &[2, 1, 1, 1, 1, 9, 0, 1, 9], 1),
    ("half an entry before its bad number", &[1, 1, 1, 1, 1, 0, 1, 9], 1),
    ("a bad number before a bad shift", &[1, 1, 1, 1, 1, 0, 1, 9, 9], 4),
    ("a bad shift before a doubled number", &[1, 1, 1, 1, 2, 0, 2, 1, 1, 1, 0], 18),
    ("a bad shift before a falling tie", &[2, 1, 1, 1, 1, 0, 0, 0, 0, 2, 0, 0, 2, 2, 1, 1, 4], 18),
    ("a bad shift before a missing entry", &[1, 1, 1, 1, 2, 0, 2, 1, 4], 18),
    ("a double before a late bad shift", &[1, 1, 1, 1, 3, 0, 3, 1, 1, 1, 1, 1, 9], 5),
    ("a bad shift before a wrong count", &[1, 1, 1, 1, 3, 0, 1, 1, 0], 18),
    ("a bad entry before a missing one", &[1, 1, 2, 1, 1, 2, 0, 2, 0, 1], 4),
    ("a doubled entry before a missing one", &[1, 1, 3, 1, 1, 1, 3, 0, 3, 1, 1, 1, 1], 5),
    ("an early double before a late 0", &[1, 1, 3, 1, 1, 1, 3, 0, 3, 1, 1, 1, 1, 0, 1], 5),
    ("an early 0 before a late double", &[1, 1, 3, 1, 1, 1, 3, 0, 3, 0, 1, 1, 1, 1, 1], 4),
    ("an entry before a wrong count", &[1, 1, 1, 1, 3, 0, 1, 0, 1], 4),
    ("a missing entry before a wrong count", &[1, 1, 1, 1, 3, 0, 1], 1),
    ("a wrong count before the next count", &[1, 1, 1, 1, 3, 0, 1, 1, 1], 7),
    ("a wrong count before a high next count", &[1, 1, 1, 1, 3, 0, 1, 1, 1, 1, 4], 7),
    ("a missing tie length before a long strict one", &[1, 1, 1, 1, 1, 0, 1, 1, 1, 1, 0, 200], 1),
    ("a long sum before its entries", &[1, 1, 1, 1, 1, 0, 1, 1, 1, 1, 0, 16, 17, 0, 1], 2),
    ("strict and tied before a fall", &[3, 1, 1, 1, 1, 1, 0, 0, 0, 0, 0, 3, 0, 1, 2, 2, 1, 3, 1, 2, 1], 5),
    ("tied before, and falling", &[3, 1, 1, 1, 1, 1, 0, 0, 0, 0, 0, 3, 0, 0, 3, 1, 1, 2, 1, 1, 1], 5),
    ("a tied 0 before a fall", &[2, 1, 1, 1, 1, 0, 0, 0, 0, 2, 0, 0, 2, 2, 1, 0, 1], 4),
    ("a fall before a missing entry", &[3, 1, 1, 1, 1, 1, 0, 0, 0, 0, 0, 3, 0, 0, 3, 2, 1, 1, 1], 6),
    ("a fall before a wrong count", &[2, 1, 1, 1, 1, 0, 0, 0, 0, 9, 0, 0, 2, 2, 1, 1, 1], 6),
    ("a wrong count before the end", &[1, 1, 1, 1, 1, 0, 1, 1, 1, 2, 0, 1, 0, 1, 1, 9], 7),
    ("a wrong count before one side only", &[1, 1, 1, 1, 1, 0, 1, 1, 1, 1, 0, 0, 0], 7),
    ("bytes behind before one side only", &[1, 1, 1, 1, 1, 0, 1, 1, 1, 0, 0, 0, 0, 5], 9),
];

/// Two surveyors of quota 2 and 1, three stands of quota 1, 1 and 0. Surveyor
/// 1 ranks 2, 1, 3 and surveyor 2 ranks 1, 2.
const PLANS_ROSTER: &[u8] = &[
    2, 2, 1, 3, 1, 1, 0, 5, 0, 3, 2, 1, 1, 1, 3, 1, 2, 1, 1, 2, 1, 5, 0, 2, 0, 1, 1, 2, 1, 0, 2, 1,
    1, 2, 1, 1, 0, 1, 1,
];

/// Plan files against that roster by the refusal they meet.
#[rustfmt::skip]
const PLANS: &[Case] = &[
    ("no bytes", &[], 1),
    ("no pair", &[1], 1),
    ("a third of a pair", &[1, 1], 1),
    ("two thirds of a pair", &[1, 1, 1], 1),
    ("a third of a second pair", &[2, 1, 1, 1, 2], 1),
    ("two thirds of a second pair", &[2, 1, 1, 1, 2, 2], 1),
    ("65 pairs", &[65], 2),
    ("65 pairs and more", &[65, 1, 1, 1], 2),
    ("255 pairs", &[255, 0], 2),
    ("surveyor 0", &[1, 0, 1, 1], 10),
    ("stand 0", &[1, 1, 0, 1], 10),
    ("surveyor 3", &[1, 3, 1, 1], 10),
    ("stand 4", &[1, 1, 4, 1], 10),
    ("shift 0", &[1, 1, 1, 0], 10),
    ("shift 4", &[1, 1, 1, 4], 10),
    ("another shift", &[1, 1, 1, 2], 10),
    ("not a pair", &[1, 2, 3, 1], 10),
    ("a pair twice", &[2, 1, 1, 1, 1, 1, 1], 11),
    ("stands fall", &[2, 1, 2, 1, 1, 1, 1], 11),
    ("surveyors fall", &[2, 2, 1, 1, 1, 2, 1], 11),
    ("a surveyor past its quota", &[2, 2, 1, 1, 2, 2, 1], 12),
    ("a stand past its quota", &[2, 1, 1, 1, 2, 1, 1], 12),
    ("a stand of quota 0", &[1, 1, 3, 1], 12),
    ("a byte behind nothing", &[0, 0], 9),
    ("a byte behind a pair", &[1, 1, 1, 1, 0], 9),
    ("a pair more than counted", &[1, 1, 1, 1, 2, 2], 9),
    ("a missing pair before a bad one behind it", &[2, 1, 1, 1, 9], 1),
    ("an early pair of none before half a pair", &[2, 0, 0, 1, 1], 10),
    ("a fall before a missing pair", &[3, 1, 2, 1, 1, 1, 1], 11),
    ("not a pair before a fall", &[2, 2, 1, 1, 1, 0, 1], 10),
    ("quota 0 before a late pair of none", &[2, 1, 3, 1, 2, 3, 1], 12),
    ("a fall before a passed quota", &[2, 2, 2, 1, 2, 1, 1], 11),
    ("a pair twice before a passed quota", &[2, 2, 1, 1, 2, 1, 1], 11),
    ("a passed quota before a byte behind", &[2, 2, 1, 1, 2, 2, 1, 0], 12),
    ("a passed quota before a late pair of none", &[3, 2, 1, 1, 2, 2, 1, 2, 3, 1], 12),
];

/// Checks a table, and returns how many cases each number has.
fn check(cases: &[Case], refusal: impl Fn(&[u8]) -> Option<Refusal>) -> [usize; NUMBERS] {
    let mut seen = [0; NUMBERS];
    for &(name, file, number) in cases {
        let refusal = refusal(file).map(|refusal| (refusal.number(), refusal.group()));
        assert_eq!(refusal, Some((number, group(number))), "{name}");
        seen[usize::from(number)] += 1;
    }
    seen
}

/// The groups from 1 on, written out.
fn group(number: u8) -> Group {
    use Group::{Content, Desk, Form, Plan};
    [
        Form, Form, Content, Content, Content, Content, Content, Content, Form, Plan, Plan, Plan,
        Desk, Desk, Desk, Content, Content, Content, Content,
    ][usize::from(number) - 1]
}

#[test]
fn every_refusal_of_a_roster() {
    let seen = check(ROSTERS, |file| read(file).err());
    for number in (1..=9).chain([18]) {
        assert!(seen[number] >= 3, "{number}: {seen:?}");
    }
}

#[test]
fn every_refusal_of_a_plan() {
    let roster = roster(PLANS_ROSTER);
    let seen = check(PLANS, |file| plan::read(&roster, file).err());
    for number in [1, 2, 9, 10, 11, 12] {
        assert!(seen[number] >= 3, "{number}: {seen:?}");
    }
}

/// Plan files against one surveyor and one stand, both of quota 2, in shifts 1
/// and 3.
#[rustfmt::skip]
const SHIFT_PLANS: &[Case] = &[
    ("a shift that the roster lacks", &[1, 1, 1, 2], 10),
    ("shift 0", &[1, 1, 1, 0], 10),
    ("shift 4", &[1, 1, 1, 4], 10),
    ("a lacking shift before a fall", &[2, 1, 1, 3, 1, 1, 2], 10),
    ("shifts fall", &[2, 1, 1, 3, 1, 1, 1], 11),
    ("a shift twice", &[2, 1, 1, 3, 1, 1, 3], 11),
    ("a byte behind", &[2, 1, 1, 1, 1, 1, 3, 1], 9),
];

#[test]
fn every_refusal_of_a_plan_with_shifts() {
    let two = roster(SHIFTS);
    check(SHIFT_PLANS, |file| plan::read(&two, file).err());
    // both shifts, and one where a quota is 1
    assert!(plan::read(&two, &[2, 1, 1, 1, 1, 1, 3]).is_ok());
    for at in [1, 3] {
        let mut file = SHIFTS.to_vec();
        file[at] = 1;
        let one = roster(&file);
        assert!(plan::read(&one, &[1, 1, 1, 3]).is_ok());
        let refusal = plan::read(&one, &[2, 1, 1, 1, 1, 1, 3]).err();
        assert_eq!(refusal, Some(Refusal::QuotaPassed));
    }
}

#[test]
fn the_first_refusal_wins() {
    check(FIRST_REFUSALS, |file| read(file).err());
}

#[test]
fn refusals_of_no_file() {
    let refusals = [
        Refusal::NoRosterLoaded,
        Refusal::NoPlanHeld,
        Refusal::BufferTooSmall,
        Refusal::NotASurveyor,
        Refusal::NoPlaceForJoiner,
    ];
    for (number, refusal) in (13..).zip(refusals) {
        assert_eq!(refusal.number(), number);
        assert_eq!(refusal.group(), group(number));
    }
}

#[test]
fn every_front_of_a_file_ends_inside_a_field() {
    for file in [P3, P4, P6, P10, SHIFTS] {
        fronts_end_inside_a_field(file, |front| read(front).err());
    }
    let two = roster(SHIFTS);
    let plan = [2, 1, 1, 1, 1, 1, 3];
    fronts_end_inside_a_field(&plan, |front| plan::read(&two, front).err());
    let list = [3, 1, 3, 1, 1, 1, 2];
    fronts_end_inside_a_field(&list, |front| join(&two, 1, front).err());
    assert!(join(&two, 1, &list).is_ok());
}

/// Cuts a file at every byte.
fn fronts_end_inside_a_field(file: &[u8], refusal: impl Fn(&[u8]) -> Option<Refusal>) {
    for end in 0..file.len() {
        let refusal = refusal(&file[..end]);
        assert_eq!(refusal, Some(Refusal::EndsInsideField), "{end}: {file:?}");
    }
}
