//! Rankings not yet settled: the proved call against every choice within small
//! ranges and against the reference, settled ranges against the comparison, and
//! files of ranges at every byte.

mod common;
mod lent;

use common::{damage, desk_with, junk, number, Met, RANKED};
use lent::{check_ranks, ranges_file};
use planner::{Desk, Least, PAIRING_BYTES, RANK_BYTES};
use reference::limits::MAX_RANK;
use reference::plan;
use reference::random::{self, any_shape, small_shape, Random};
use reference::ranges::{entries, for_each_choice, settled, vote_under, write, Range};
use reference::roster::{self, Roster};

/// The program's roster, plans 1-1 and 2-1: surveyor 1 ranks the stand 1 or 2, the
/// stand surveyor 1 anywhere from 1 to 4 and surveyor 2 from 2 to 3.
const FIRST: [u8; 4] = [1, 1, 1, 1];
const SECOND: [u8; 4] = [1, 2, 1, 1];
const RANGES: [u8; 8] = [1, 2, 1, 1, 1, 4, 2, 3];

#[test]
fn the_stated_case() {
    let desk = desk_with(&RANKED).expect("accepted");
    let mut ranks = [7; RANK_BYTES];
    let least = desk.least(&FIRST, &SECOND, &RANGES, &mut ranks);
    assert_eq!(least, Ok(Least { vote: -1, ranks: 4 }));
    assert_eq!(ranks[..4], [2, 1, 4, 2]);
    assert_eq!(ranks[4..], [7; RANK_BYTES - 4]);
    let (mut forward, mut back) = ([0; PAIRING_BYTES], [0; PAIRING_BYTES]);
    let votes = desk.compare(&FIRST, &SECOND, &mut forward, &mut back);
    assert_eq!(votes.outcome.expect("accepted").first, 1);
}

/// The call on a roster's desk, its buffer full of junk before and checked behind.
fn asked(random: &mut Random, roster: &Roster, files: [&[u8]; 3]) -> Result<i16, u8> {
    let desk = desk_with(&roster::write(roster)).expect("accepted");
    let before = junk(random, RANK_BYTES);
    let mut out = before.clone();
    let [first, second, ranges] = files;
    let answer = desk.least(first, second, ranges, &mut out);
    match answer {
        Ok(least) => {
            assert_eq!(least.ranks, 2 * roster.pairs().len());
            check_ranks(roster, files, &before, &out, (least.vote, least.ranks));
            Ok(least.vote)
        }
        Err(refusal) => {
            assert_eq!(out, before);
            Err(refusal.number)
        }
    }
}

/// Ranges of up to three ranks with few choices in all.
fn small_ranges(random: &mut Random, count: usize) -> Vec<Range> {
    let mut choices = 1;
    let range = |_| {
        let low = random.within(&(1..=4));
        let low = if random.chance(10) { MAX_RANK - 2 } else { low };
        let width = if choices < 100 { random.below(3) } else { 0 };
        choices *= width + 1;
        Range {
            low,
            high: low + width as u8,
        }
    };
    (0..count).map(range).collect()
}

#[test]
fn the_least_of_all_choices() {
    let mut random = Random::new(2_110);
    let (mut rosters, mut choices, mut lower) = (0, 0, 0);
    while rosters < 250 {
        let shape = small_shape(&mut random);
        let roster = random::roster(&mut random, &shape);
        if roster.pairs().is_empty() || roster.pairs().len() > 8 {
            continue;
        }
        rosters += 1;
        let [mine, theirs] = [(); 2].map(|()| random::maximal_plan(&mut random, &roster));
        let ranges = small_ranges(&mut random, entries(&roster).len());
        let [first, second] = [&mine, &theirs].map(|plan| plan::write(&roster, plan));
        let vote = asked(&mut random, &roster, [&first, &second, &write(&ranges)]);
        let mut least = i16::MAX;
        for_each_choice(&ranges, &mut |ranks| {
            least = least.min(vote_under(&roster, ranks, &mine, &theirs));
            choices += 1;
        });
        assert_eq!(vote, Ok(least), "{roster:?} {ranges:?}");
        let ordinary = reference::votes::plan_vote(&roster, &mine, &theirs);
        lower += usize::from(least < ordinary);
    }
    println!("{choices} choices, {lower} votes below the ordinary one");
    assert!(choices > 8_000 && lower > 20);
}

#[test]
fn settled_ranges_give_the_comparisons_vote() {
    let mut random = Random::new(2_111);
    for _ in 0..600 {
        let shape = any_shape(&mut random);
        let roster = random::roster(&mut random, &shape);
        let [first, second] = [(); 2].map(|()| {
            let plan = random::maximal_plan(&mut random, &roster);
            plan::write(&roster, &plan)
        });
        let desk = desk_with(&roster::write(&roster)).expect("accepted");
        let (mut forward, mut back) = ([0; PAIRING_BYTES], [0; PAIRING_BYTES]);
        let compared = desk.compare(&first, &second, &mut forward, &mut back);
        let ranges = write(&settled(&roster));
        let vote = asked(&mut random, &roster, [&first, &second, &ranges]);
        assert_eq!(vote, Ok(compared.outcome.expect("accepted").first));
    }
}

#[test]
fn large_rosters_against_the_reference() {
    let mut random = Random::new(2_112);
    let mut longest = 0;
    for round in 0..300 {
        let shape = if round % 10 == 0 {
            random::longest_shape(50, 20)
        } else {
            any_shape(&mut random)
        };
        let roster = random::roster(&mut random, &shape);
        let [first, second] = [(); 2].map(|()| {
            let plan = random::maximal_plan(&mut random, &roster);
            plan::write(&roster, &plan)
        });
        let ranges = ranges_file(&mut random, &roster);
        let files = [&first[..], &second, &ranges];
        let expected = reference::ranges::least(&roster, &first, &second, &ranges);
        let vote = asked(&mut random, &roster, files);
        assert_eq!(vote, Ok(expected.expect("accepted").0));
        longest = longest.max(ranges.len());
    }
    assert_eq!(longest, 2 * RANK_BYTES);
}

#[test]
fn damaged_files_at_every_byte() {
    let mut random = Random::new(2_113);
    let mut met = Met::default();
    let held = roster::read(&RANKED).expect("accepted");
    let mut check = |random: &mut Random, files: [&[u8]; 3]| {
        let [first, second, ranges] = files;
        let expected = reference::ranges::least(&held, first, second, ranges);
        let expected = expected.map(|(vote, _)| vote);
        let answer = asked(random, &held, files);
        assert_eq!(answer, expected.map_err(|refusal| refusal.number()));
        met.count(answer.err().unwrap_or(0));
    };
    for at in 0..RANGES.len() {
        check(&mut random, [&FIRST, &SECOND, &RANGES[..at]]);
        for byte in 0..=255 {
            let mut ranges = RANGES;
            ranges[at] = byte;
            check(&mut random, [&FIRST, &SECOND, &ranges]);
            // 21 comes before 9, and 1 before 21 in the same field
            check(
                &mut random,
                [&FIRST, &SECOND, &[&ranges[..], &[1]].concat()],
            );
            check(&mut random, [&FIRST, &SECOND, &ranges[..=at]]);
        }
    }
    for _ in 0..4_000 {
        let mut files = [FIRST.to_vec(), SECOND.to_vec(), RANGES.to_vec()];
        for _ in 0..=random.below(2) {
            let place = random.below(4).min(2);
            damage(&mut random, &mut files[place]);
        }
        let [first, second, ranges] = &files;
        check(&mut random, [first, second, ranges]);
    }
    met.require(&[0, 1, 2, 9, 10, 21], 20);
}

#[test]
fn refusals_in_their_order() {
    let mut out = [7; RANK_BYTES];
    let open = Desk::open();
    assert_eq!(number(&open.least(&[], &[], &[], &mut out[..0])), 13);
    assert_eq!(number(&open.least(&FIRST, &SECOND, &RANGES, &mut out)), 13);
    // no plan is held, and none is needed
    let desk = desk_with(&RANKED).expect("accepted");
    for length in [0, 1, 4, RANK_BYTES - 1] {
        let answer = desk.least(&[], &[9], &[0, 0], &mut out[..length]);
        assert_eq!(number(&answer), 15);
    }
    assert_eq!(number(&desk.least(&[], &[65], &[0, 0], &mut out)), 1);
    assert_eq!(
        number(&desk.least(&[1, 1, 1, 2], &[65], &[0, 0], &mut out)),
        10
    );
    assert_eq!(number(&desk.least(&FIRST, &[65], &[0, 0], &mut out)), 2);
    assert_eq!(number(&desk.least(&FIRST, &SECOND, &[0, 0], &mut out)), 21);
    let refusal = desk
        .least(&FIRST, &SECOND, &[1, 33], &mut out)
        .expect_err("a rank above 32");
    assert_eq!(
        refusal.to_string(),
        "a range's low rank is 0 or above its high one, or its high rank is above 32"
    );
    assert_eq!(refusal.group, planner::Group::Content);
    assert_eq!(out, [7; RANK_BYTES]);
    let mut longer = [7; RANK_BYTES + 1];
    let least = desk.least(&FIRST, &SECOND, &RANGES, &mut longer);
    assert_eq!(least.expect("accepted").vote, -1);
    assert_eq!(longer[4..], [7; RANK_BYTES - 3]);
}
