//! Rosters and plans are written back to the same bytes.

mod common;

use common::{damage, NUMBERS};
use reference::plan;
use reference::random::{self, Random, Shape};
use reference::refusal::Refusal;
use reference::roster::{read, write, Roster};

/// Shapes from small to as wide as the limits allow.
fn shapes() -> [Shape; 4] {
    let shape = |counts, quotas, shifts, pairs| Shape {
        counts,
        quotas,
        shifts,
        pairs,
        ties: 70,
        opposed: 20,
    };
    [
        shape([0..=3, 0..=3], [0..=8, 0..=8], 3, 40),
        shape([4..=8, 4..=8], [0..=8, 0..=8], 3, 40),
        shape([20..=32, 20..=32], [0..=2, 0..=2], 1, 80),
        shape([20..=32, 20..=32], [0..=2, 0..=2], 3, 40),
    ]
}

#[test]
fn rosters_are_written_back() {
    let mut random = Random::new(11);
    for shape in shapes() {
        for _ in 0..2_000 {
            let roster = random::roster(&mut random, &shape);
            let file = write(&roster);
            assert_eq!(read(&file), Ok(roster), "{file:?}");
        }
    }
}

#[test]
fn plans_are_written_back() {
    let mut random = Random::new(12);
    for shape in shapes() {
        for _ in 0..300 {
            let roster = random::roster(&mut random, &shape);
            let plan = random::plan(&mut random, &roster, 80);
            let file = plan::write(&roster, &plan);
            assert_eq!(file.len(), 1 + 3 * plan.indices().len());
            assert_eq!(plan::read(&roster, &file), Ok(plan), "{file:?}");
        }
    }
}

/// Reads damaged files; those accepted must be written back. Returns how often
/// each number was met, with acceptance at 0.
fn damaged(
    seed: u64,
    file: impl Fn(&mut Random, &Roster) -> Vec<u8>,
    rewritten: impl Fn(&Roster, &[u8]) -> Result<Vec<u8>, Refusal>,
) -> [usize; NUMBERS] {
    let mut random = Random::new(seed);
    let mut seen = [0; NUMBERS];
    for _ in 0..100_000 {
        let roster = random::roster(&mut random, &shapes()[0]);
        let mut file = file(&mut random, &roster);
        damage(&mut random, &mut file);
        match rewritten(&roster, &file) {
            Ok(again) => {
                assert_eq!(again, file);
                seen[0] += 1;
            }
            Err(refusal) => seen[usize::from(refusal.number())] += 1,
        }
    }
    seen
}

#[test]
fn damaged_rosters_are_refused_or_written_back() {
    let seen = damaged(
        13,
        |_, roster| write(roster),
        |_, file| read(file).map(|roster| write(&roster)),
    );
    println!("damaged rosters: {seen:?}");
    for number in (0..=9).chain([18]) {
        assert!(seen[number] > 100, "{number}: {seen:?}");
    }
}

#[test]
fn damaged_plans_are_refused_or_written_back() {
    let seen = damaged(
        14,
        |random, roster| plan::write(roster, &random::plan(random, roster, 90)),
        |roster, file| plan::read(roster, file).map(|plan| plan::write(roster, &plan)),
    );
    println!("damaged plans: {seen:?}");
    for number in [0, 1, 9, 10, 11, 12] {
        assert!(seen[number] > 100, "{number}: {seen:?}");
    }
}
