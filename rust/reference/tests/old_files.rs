//! Old season files against the reader and the writer from before the shifts:
//! the samples of that time, every front of them, every short file, random files
//! and damaged ones; and new files with one shift and with several on the way
//! back.

mod common;
mod lent;
mod turned;

use std::fs;
use std::path::{Path, PathBuf};

use common::{damage, desk, Bytes, NUMBERS};
use reference::desk::Desk;
use reference::finder::{find_large, Answer};
use reference::limits::{MAX_LIST, OLD_PAIR_FIELD, OLD_SHIFT, PAIR_FIELD};
use reference::old;
use reference::plan;
use reference::random::{self, Random, Shape};
use reference::refusal::Refusal;
use reference::roster::{self, Roster};
use turned::{plan_to_new, plan_to_old, roster_to_new, roster_to_old};

/// How often each number was met, with acceptance at 0.
type Seen = [usize; NUMBERS];

fn number<T>(answer: &Result<T, u8>) -> usize {
    usize::from(answer.as_ref().err().copied().unwrap_or(0))
}

fn folder() -> PathBuf {
    Path::new(env!("CARGO_MANIFEST_DIR")).join("../../samples")
}

/// The old samples with that end of their names: name and bytes.
fn samples(end: &str) -> Vec<(String, Vec<u8>)> {
    let mut samples = Vec::new();
    for entry in fs::read_dir(folder().join("old")).expect("the old samples") {
        let path = entry.expect("a sample").path();
        let name = path.file_name().and_then(|name| name.to_str());
        if let Some(name) = name.and_then(|name| name.strip_suffix(end)) {
            samples.push((name.to_owned(), fs::read(&path).expect("its bytes")));
        }
    }
    samples
}

/// The new sample of that name.
fn new_sample(name: &str) -> Vec<u8> {
    fs::read(folder().join(format!("{name}.roster"))).expect("a sample")
}

/// Turns an old roster: it meets what it met before the shifts, and goes back to
/// the same bytes.
fn check_old_roster(file: &[u8]) -> Result<Vec<u8>, u8> {
    let before = old::roster::read(file);
    let turned = roster_to_new(file);
    match (&before, &turned) {
        (Ok(before), Ok(new)) => {
            let after = roster::read(new).expect("accepted");
            assert!(after.pairs().iter().all(|pair| pair.shift == OLD_SHIFT));
            assert_eq!(old::without_shifts(&after), *before);
            assert_eq!(roster_to_old(new).as_deref(), Ok(file));
        }
        (Err(refusal), Err(number)) => assert_eq!(refusal.number(), *number, "{file:?}"),
        _ => panic!("{before:?}, but now {turned:?}: {file:?}"),
    }
    turned
}

#[test]
fn old_samples_are_turned_and_turned_back() {
    let refused = [
        ("byte-behind", 9),
        ("cut-short", 1),
        ("one-side", 8),
        ("quota-nine", 3),
    ];
    let mut accepted = 0;
    for (name, file) in samples(".roster") {
        let refusal = refused.iter().find(|(refused, _)| *refused == name);
        match (check_old_roster(&file), refusal) {
            (Ok(new), None) => {
                // the new sample of this name has other shifts
                assert_eq!(new == new_sample(&name), name != "longest", "{name}");
                accepted += 1;
            }
            (turned, refusal) => {
                assert_eq!(turned.err(), refusal.map(|(_, number)| *number), "{name}");
            }
        }
    }
    assert_eq!((accepted, samples(".roster").len()), (13, 17));
}

/// A desk with the new file of an old sample.
fn desk_of(name: &str) -> Desk {
    let samples = samples(".roster");
    let sample = samples.iter().find(|(sample, _)| sample == name);
    let (_, file) = sample.expect("a sample");
    desk(&roster_to_new(file).expect("accepted"))
}

#[test]
fn old_plan_samples() {
    let cases = [
        ("two-for-one", "two-for-one", None),
        ("district", "district", None),
        ("tied.second", "tied", None),
        ("tied.both", "tied", Some(12)),
    ];
    let samples = samples(".plan");
    assert_eq!(samples.len(), cases.len());
    for (name, file) in &samples {
        let case = cases.iter().find(|(case, ..)| case == name);
        let (_, roster, refusal) = case.expect("a known sample");
        let held = desk_of(roster);
        let turned = plan_to_new(&held, file);
        assert_eq!(turned.as_ref().err(), refusal.as_ref(), "{name}");
        if let Ok(new) = turned {
            assert_eq!(plan_to_old(&held, &new).as_ref(), Ok(file), "{name}");
        }
    }
}

#[test]
fn the_old_district_has_its_strongly_popular_plan() {
    let held = desk_of("district");
    let roster = held.roster().expect("a roster");
    let Answer::Plan { plan, .. } = find_large(roster) else {
        panic!("a strongly popular plan");
    };
    let samples = samples(".plan");
    let (_, file) = samples
        .iter()
        .find(|(name, _)| name == "district")
        .expect("a sample");
    assert_eq!(plan_to_new(&held, file), Ok(plan::write(roster, &plan)));
}

#[test]
fn old_rosters_cut_at_each_byte() {
    let mut seen: Seen = [0; NUMBERS];
    for (_, file) in samples(".roster") {
        for end in 0..file.len() {
            seen[number(&check_old_roster(&file[..end]))] += 1;
        }
    }
    println!("fronts of old files: {seen:?}");
    // whole in front of its last byte
    assert_eq!(seen[0], 1);
    assert!(seen[1] > 4_000);
}

#[test]
fn every_short_file_is_met_as_before() {
    let mut seen: Seen = [0; NUMBERS];
    for bytes in [&[0, 1, 2, 9, 33][..], &[0, 1, 2, 3]] {
        let count = bytes.len();
        for length in 0..=8u32 {
            for code in 0..count.pow(length) {
                let digit = |place| bytes[code / count.pow(place) % count];
                let file: Vec<u8> = (0..length).map(digit).collect();
                seen[number(&check_old_roster(&file))] += 1;
            }
        }
    }
    println!("short files: {seen:?}");
    for number in [0, 1, 2, 3, 4, 7, 9] {
        assert!(seen[number] > 5, "{number}: {seen:?}");
    }
}

/// A shape up to the limits with so many shifts.
fn any_shape(random: &mut Random, shifts: u8) -> Shape {
    let shape = random::any_shape(random);
    Shape { shifts, ..shape }
}

/// A small shape with so many shifts, and about as many pairs either way.
fn small_shape(shifts: u8) -> Shape {
    Shape {
        counts: [0..=4, 0..=4],
        quotas: [0..=4, 0..=4],
        shifts,
        pairs: 70 / shifts,
        ties: 60,
        opposed: 20,
    }
}

/// Damages a file once or twice, or leaves it.
fn damaged(random: &mut Random, mut file: Vec<u8>) -> Vec<u8> {
    for _ in 0..random.below(3) {
        if !file.is_empty() {
            damage(random, &mut file);
        }
    }
    file
}

#[test]
fn damaged_old_rosters_are_met_as_before() {
    let mut random = Random::new(71);
    let mut seen: Seen = [0; NUMBERS];
    for _ in 0..300_000 {
        let roster = random::roster(&mut random, &small_shape(1));
        let file = old::roster::write(&old::without_shifts(&roster));
        let file = damaged(&mut random, file);
        seen[number(&check_old_roster(&file))] += 1;
    }
    println!("damaged old rosters: {seen:?}");
    for number in 0..=9 {
        assert!(seen[number] > 500, "{number}: {seen:?}");
    }
}

#[test]
fn old_rosters_up_to_the_limits() {
    let mut random = Random::new(72);
    let mut longest = 0;
    for _ in 0..3_000 {
        let shape = any_shape(&mut random, 1);
        let roster = random::roster(&mut random, &shape);
        let file = old::roster::write(&old::without_shifts(&roster));
        assert_eq!(check_old_roster(&file), Ok(roster::write(&roster)));
        longest = longest.max(file.len());
    }
    let shape = random::longest_old_shape(50, 20);
    let full = random::roster(&mut random, &shape);
    let file = old::roster::write(&old::without_shifts(&full));
    let new = check_old_roster(&file).expect("accepted");
    assert_eq!((file.len(), new.len()), (2_214, 4_262));
    assert!(longest > 1_500, "{longest}");
}

/// Turns a new roster back: it meets its own refusal or 19, or it goes there and
/// back.
fn check_new_roster(file: &[u8]) -> Result<Vec<u8>, u8> {
    let turned = roster_to_old(file);
    match roster::read(file) {
        Err(refusal) => assert_eq!(turned, Err(refusal.number()), "{file:?}"),
        Ok(roster) if roster.pairs().iter().any(|pair| pair.shift != OLD_SHIFT) => {
            assert_eq!(turned, Err(19), "{file:?}");
        }
        Ok(roster) => {
            let old = old::roster::write(&old::without_shifts(&roster));
            assert_eq!(turned.as_ref(), Ok(&old));
            assert_eq!(roster_to_new(&old).as_deref(), Ok(file));
        }
    }
    turned
}

#[test]
fn new_rosters_on_the_way_back() {
    let mut random = Random::new(73);
    let mut seen: Seen = [0; NUMBERS];
    for _ in 0..300_000 {
        let shape = small_shape(random.within(&(1..=3)));
        let file = roster::write(&random::roster(&mut random, &shape));
        let file = damaged(&mut random, file);
        seen[number(&check_new_roster(&file))] += 1;
    }
    println!("new rosters back: {seen:?}");
    for number in (0..=9).chain([18, 19]) {
        assert!(seen[number] > 300, "{number}: {seen:?}");
    }
}

#[test]
fn new_rosters_up_to_the_limits_on_the_way_back() {
    let mut random = Random::new(74);
    let mut seen: Seen = [0; NUMBERS];
    for _ in 0..3_000 {
        let shifts = random.within(&(1..=2));
        let shape = any_shape(&mut random, shifts);
        let file = roster::write(&random::roster(&mut random, &shape));
        seen[number(&check_new_roster(&file))] += 1;
    }
    println!("new rosters up to the limits back: {seen:?}");
    assert!(seen[0] > 1_000 && seen[19] > 500, "{seen:?}");
    assert_eq!(seen[0] + seen[19], 3_000);
}

/// Turns an old plan on a desk with this roster: it meets what the same plan with
/// shift 1 meets, and goes back to the same bytes.
fn check_old_plan(roster: &Roster, held: &Desk, file: &[u8]) -> Result<Vec<u8>, u8> {
    let turned = plan_to_new(held, file);
    let with_shift = with_shift_1(file);
    match plan::read(roster, &with_shift) {
        Err(refusal) => assert_eq!(turned, Err(refusal.number()), "{file:?}"),
        Ok(_) => {
            assert_eq!(turned.as_ref(), Ok(&with_shift));
            assert_eq!(plan_to_old(held, &with_shift).as_deref(), Ok(file));
        }
    }
    turned
}

/// A plan's file with shift 1 behind each whole pair.
fn with_shift_1(file: &[u8]) -> Vec<u8> {
    let (count, pairs) = file.split_at(file.len().min(1));
    let mut new = count.to_vec();
    for pair in pairs.chunks(OLD_PAIR_FIELD) {
        new.extend(pair);
        if pair.len() == OLD_PAIR_FIELD {
            new.push(OLD_SHIFT);
        }
    }
    new
}

/// An old plan of this roster, of pairs that it has in shift 1.
fn old_plan(random: &mut Random, roster: &Roster) -> Vec<u8> {
    let plan = random::plan(random, roster, 80);
    let pairs = plan.pairs(roster).filter(|pair| pair.shift == OLD_SHIFT);
    let fields: Vec<u8> = pairs.flat_map(|pair| [pair.surveyor, pair.stand]).collect();
    let count = roster::narrow(fields.len() / OLD_PAIR_FIELD);
    std::iter::once(count).chain(fields).collect()
}

#[test]
fn damaged_old_plans() {
    let mut random = Random::new(75);
    let mut seen: Seen = [0; NUMBERS];
    // against the reader from before the shifts, where the roster has none
    let mut as_before = 0;
    for _ in 0..150_000 {
        let shifts = random.within(&(1..=3));
        let roster = random::roster(&mut random, &small_shape(shifts));
        let held = Desk::Roster(roster.clone());
        let file = old_plan(&mut random, &roster);
        let file = damaged(&mut random, file);
        let turned = check_old_plan(&roster, &held, &file);
        seen[number(&turned)] += 1;
        if shifts == 1 {
            let before = old::plan::read(&old::without_shifts(&roster), &file);
            assert_eq!(turned.err(), before.err().map(Refusal::number), "{file:?}");
            as_before += 1;
        }
    }
    println!("old plans: {seen:?}; as before the shifts: {as_before}");
    for number in [0, 1, 9, 10, 11, 12] {
        assert!(seen[number] > 500, "{number}: {seen:?}");
    }
    assert!(as_before > 40_000);
}

#[test]
fn new_plans_on_the_way_back() {
    let mut random = Random::new(76);
    let mut seen: Seen = [0; NUMBERS];
    for _ in 0..150_000 {
        let shape = small_shape(random.within(&(1..=3)));
        let roster = random::roster(&mut random, &shape);
        let held = Desk::Roster(roster.clone());
        let file = plan::write(&roster, &random::plan(&mut random, &roster, 60));
        let file = damaged(&mut random, file);
        let turned = plan_to_old(&held, &file);
        seen[number(&turned)] += 1;
        let expected = match plan::read(&roster, &file) {
            Err(refusal) => Err(refusal.number()),
            Ok(plan) if plan.pairs(&roster).any(|pair| pair.shift != OLD_SHIFT) => Err(19),
            Ok(_) => Ok(without_last_of_each(&file)),
        };
        assert_eq!(turned, expected, "{file:?}");
        if let Ok(old) = turned {
            assert_eq!(plan_to_new(&held, &old), Ok(file));
        }
    }
    println!("new plans back: {seen:?}");
    for number in [0, 1, 9, 10, 11, 12, 19] {
        assert!(seen[number] > 500, "{number}: {seen:?}");
    }
}

/// A plan's file without the last byte of each pair.
fn without_last_of_each(file: &[u8]) -> Vec<u8> {
    let (count, pairs) = file.split_at(1);
    let fields = pairs.chunks_exact(PAIR_FIELD);
    let numbers = fields.flat_map(|field| &field[..OLD_PAIR_FIELD]);
    count.iter().chain(numbers).copied().collect()
}

#[test]
fn the_longest_plans() {
    let mut random = Random::new(77);
    let shape = random::longest_old_shape(50, 20);
    let roster = random::roster(&mut random, &shape);
    let plan = random::plan_of(&mut random, &roster, 64);
    let new = plan::write(&roster, &plan);
    let held = Desk::Roster(roster);
    let old = plan_to_old(&held, &new).expect("only shift 1");
    assert_eq!((old.len(), new.len()), (129, 193));
    assert_eq!(plan_to_new(&held, &old), Ok(new));
}

#[test]
fn a_list_may_be_as_long_as_the_other_side() {
    // 32 stands, then the same list with one entry more, which is too long
    let list = |entries: usize| -> Vec<u8> {
        let mut file = vec![1, 1, 32];
        file.extend([0; MAX_LIST]);
        file.extend([entries as u8, 0, entries as u8]);
        file.extend((1..=MAX_LIST as u8).chain([1]).take(entries));
        file.extend([entries as u8, 0]);
        file.extend([1, 0, 1].repeat(MAX_LIST));
        file
    };
    assert!(check_old_roster(&list(32)).is_ok());
    assert_eq!(check_old_roster(&list(33)), Err(2));
}

/// Old rosters that the list limit since W-204 would meet with another number.
#[test]
fn the_old_list_limit_holds() {
    let cases: [(&str, Bytes, u8); 4] = [
        (
            "a surveyor lists a stand twice",
            &[1, 1, 1, 1, 2, 0, 2, 1, 1, 2, 0, 1, 0, 1],
            2,
        ),
        (
            "a surveyor lists one of no stands",
            &[1, 1, 0, 1, 0, 1, 1, 0, 0],
            2,
        ),
        (
            "a stand lists one of no surveyors",
            &[0, 1, 1, 0, 0, 1, 0, 1, 0, 1],
            2,
        ),
        ("the end behind the length", &[1, 1, 1, 1, 2, 0, 2], 2),
    ];
    for (name, file, number) in cases {
        assert_eq!(check_old_roster(file), Err(number), "{name}");
    }
}
