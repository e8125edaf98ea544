//! Old season files through the library, against the reference and against the
//! reader from before the shifts: every answer, and every byte of every buffer,
//! which are filled with junk first.

mod common;

use std::fs;

use common::{desk_with, junk, length, number, root, same_refusal, Met};
use common::{season_plan, season_roster, shape};
use planner::{Desk, PLAN_BYTES, ROSTER_BYTES};
use reference::layout::Layout;
use reference::old;
use reference::plan;
use reference::random::{self, Random};
use reference::refusal::Refusal;
use reference::roster::{self, Roster};
use reference::seasons;

/// Holds a conversion against the reference's, both lent such a buffer.
fn same_turned(
    before: &[u8],
    ours: impl FnOnce(&mut [u8]) -> Result<usize, planner::Refusal>,
    theirs: impl FnOnce(&mut [u8]) -> Result<usize, Refusal>,
) -> Result<Vec<u8>, u8> {
    let [mut own, mut other] = [before.to_vec(), before.to_vec()];
    match (ours(&mut own), theirs(&mut other)) {
        (Ok(length), Ok(expected)) => {
            assert_eq!((length, &own), (expected, &other));
            own.truncate(length);
            Ok(own)
        }
        (Err(ours), Err(theirs)) => {
            same_refusal(ours, theirs);
            assert_eq!(own, before);
            Err(ours.number)
        }
        (ours, theirs) => panic!("{ours:?}, but {theirs:?}"),
    }
}

/// Turns a roster's file both ways.
fn check_roster(before: &[u8], file: &[u8]) -> [Result<Vec<u8>, u8>; 2] {
    let new = same_turned(
        before,
        |out| planner::roster_to_new(file, out),
        |out| seasons::roster_to_new(file, out),
    );
    let old = same_turned(
        before,
        |out| planner::roster_to_old(file, out),
        |out| seasons::roster_to_old(file, out),
    );
    if before.len() >= ROSTER_BYTES {
        let as_before = old::roster::read(file).err().map(Refusal::number);
        assert_eq!(new.as_ref().err().copied(), as_before, "{file:?}");
    }
    [new, old]
}

/// A buffer of junk, below its size now and then.
fn buffer(random: &mut Random, size: usize) -> Vec<u8> {
    let length = length(random, size);
    junk(random, length)
}

fn count(met: &mut [Met; 2], turned: &[Result<Vec<u8>, u8>; 2]) {
    for (met, turned) in met.iter_mut().zip(turned) {
        met.count(turned.as_ref().err().copied().unwrap_or(0));
    }
}

#[test]
fn every_short_file() {
    let mut random = Random::new(81);
    let mut met = [Met::default(), Met::default()];
    let before = junk(&mut random, ROSTER_BYTES);
    let bytes = [0u8, 1, 2, 9, 33];
    for length in 0..=7u32 {
        for code in 0..bytes.len().pow(length) {
            let digit = |place| bytes[code / bytes.len().pow(place) % bytes.len()];
            let file: Vec<u8> = (0..length).map(digit).collect();
            count(&mut met, &check_roster(&before, &file));
        }
    }
    for met in met {
        met.require(&[1, 2, 3, 7, 9], 5);
        met.require(&[0], 1);
    }
}

#[test]
fn random_and_damaged_rosters() {
    let mut random = Random::new(82);
    let mut met = [Met::default(), Met::default()];
    for _ in 0..400_000 {
        let file = season_roster(&mut random);
        let before = buffer(&mut random, ROSTER_BYTES);
        count(&mut met, &check_roster(&before, &file));
    }
    met[0].require(&[0, 1, 2, 3, 4, 5, 6, 7, 8, 9, 15], 100);
    met[1].require(&[0, 1, 2, 3, 4, 5, 6, 7, 8, 9, 15, 18, 19], 100);
}

/// The longest roster of one shift.
fn longest(random: &mut Random) -> Roster {
    random::roster(random, &random::longest_old_shape(50, 20))
}

#[test]
fn the_longest_rosters_there_and_back() {
    let mut random = Random::new(83);
    let before = junk(&mut random, ROSTER_BYTES);
    for _ in 0..200 {
        let roster = longest(&mut random);
        let file = old::roster::write(&old::without_shifts(&roster));
        let [new, _] = check_roster(&before, &file);
        let new = new.expect("accepted");
        assert_eq!((file.len(), new.len()), (2_214, 4_262));
        assert_eq!(new, roster::write(&roster));
        let [_, old] = check_roster(&before, &new);
        assert_eq!(old, Ok(file));
    }
    // as long, with other shifts
    let shape = random::longest_shape(50, 20);
    let file = roster::write(&random::roster(&mut random, &shape));
    let [_, old] = check_roster(&before, &file);
    assert_eq!(old, Err(19));
}

#[test]
fn old_samples_there_and_back() {
    let mut random = Random::new(84);
    let before = junk(&mut random, ROSTER_BYTES);
    let mut met = Met::default();
    for entry in fs::read_dir(root().join("samples/old")).expect("the old samples") {
        let path = entry.expect("a sample").path();
        if path.extension().is_none_or(|end| end != "roster") {
            continue;
        }
        let file = fs::read(&path).expect("its bytes");
        for end in 0..=file.len() {
            let [new, _] = check_roster(&before, &file[..end]);
            met.count(new.as_ref().err().copied().unwrap_or(0));
            if let Ok(new) = new {
                let [_, old] = check_roster(&before, &new);
                assert_eq!(old.as_deref(), Ok(&file[..end]));
            }
        }
    }
    met.require(&[1], 4_000);
    met.require(&[0], 14);
    met.require(&[3, 8, 9], 1);
}

#[test]
fn random_and_damaged_plans() {
    let mut random = Random::new(85);
    let mut met = [Met::default(), Met::default()];
    for _ in 0..60_000 {
        let mut shape = shape(&mut random);
        shape.quotas = [0..=3, 0..=3];
        let roster = random::roster(&mut random, &shape);
        let desk = desk_with(&roster::write(&roster)).expect("accepted");
        for _ in 0..4 {
            let file = season_plan(&mut random, &roster);
            let before = buffer(&mut random, PLAN_BYTES);
            count(&mut met, &check_plan(&desk, &roster, &before, &file));
        }
    }
    met[0].require(&[0, 1, 2, 9, 10, 11, 12, 15], 100);
    met[1].require(&[0, 1, 2, 9, 10, 11, 12, 15, 19], 100);
}

/// Turns a plan's file both ways, on a desk with this roster.
fn check_plan(
    desk: &Desk,
    roster: &Roster,
    before: &[u8],
    file: &[u8],
) -> [Result<Vec<u8>, u8>; 2] {
    [
        same_turned(
            before,
            |out| desk.plan_to_new(file, out),
            |out| seasons::plan_to_new(roster, file, out),
        ),
        same_turned(
            before,
            |out| desk.plan_to_old(file, out),
            |out| seasons::plan_to_old(roster, file, out),
        ),
    ]
}

#[test]
fn the_longest_plans_there_and_back() {
    let mut random = Random::new(86);
    let roster = longest(&mut random);
    let desk = desk_with(&roster::write(&roster)).expect("accepted");
    let before = junk(&mut random, PLAN_BYTES);
    for _ in 0..200 {
        let plan = random::plan_of(&mut random, &roster, 64);
        let file = plan::write_by(Layout::Old, &roster, &plan);
        let [new, _] = check_plan(&desk, &roster, &before, &file);
        let new = new.expect("accepted");
        assert_eq!((file.len(), new.len()), (129, 193));
        let [_, old] = check_plan(&desk, &roster, &before, &new);
        assert_eq!(old, Ok(file));
    }
}

#[test]
fn each_buffer_one_below_its_size() {
    let mut out = [0; ROSTER_BYTES];
    let empty = [0; 6];
    let (roster, plan) = (ROSTER_BYTES - 1, PLAN_BYTES - 1);
    assert_eq!((roster, plan), (4_261, 192));
    assert_eq!(
        number(&planner::roster_to_new(&empty, &mut out[..roster])),
        15
    );
    assert_eq!(
        number(&planner::roster_to_old(&empty, &mut out[..roster])),
        15
    );
    let desk = desk_with(&empty).expect("accepted");
    assert_eq!(number(&desk.plan_to_new(&[0], &mut out[..plan])), 15);
    assert_eq!(number(&desk.plan_to_old(&[0], &mut out[..plan])), 15);
    assert_eq!(desk.plan_to_new(&[0], &mut out[..PLAN_BYTES]), Ok(1));
    assert_eq!(desk.plan_to_old(&[0], &mut out[..PLAN_BYTES]), Ok(1));
    assert_eq!(planner::roster_to_new(&empty, &mut out), Ok(6));
    assert_eq!(planner::roster_to_old(&empty, &mut out), Ok(6));
}
