//! Rankings not yet settled: the stated cases, the least vote against every choice
//! within small ranges, settled ranges, and files of ranges at every byte.

mod common;

use common::{damage, desk, roster, without_pairs, Bytes, P1, P10, P3, P4, SHIFTS, SHIFTS_TIED};
use reference::desk::Desk;
use reference::fast;
use reference::limits::{MAX_RANK, MAX_RANK_BYTES};
use reference::plan::{self, Plan};
use reference::random::{self, small_shape, Random};
use reference::ranges::{
    entries, for_each_choice, is_choice, least, read, roster_ranks, settled, vote_under,
    worst_choice, write, Range,
};
use reference::refusal::Refusal;
use reference::roster::{self, Roster, Side};
use reference::votes::plan_vote;

const JUNK: u8 = 0xa5;

/// The numbers of a file's refusal, 0 if it is accepted: of the plain reading and
/// of the fast one, which must agree.
fn number(roster: &Roster, file: &[u8]) -> u8 {
    let plain = read(roster, file).map_or_else(Refusal::number, |_| 0);
    let instance = fast::roster::read(&roster::write(roster)).expect("accepted");
    assert_eq!(fast::ranges::check(&instance, file), plain, "{file:?}");
    plain
}

#[test]
fn the_rosters_order() {
    let order = |file: Bytes| -> Vec<(u8, u8, u8, bool)> {
        let entries = entries(&roster(file)).into_iter();
        entries
            .map(|(side, pair)| (pair.surveyor, pair.stand, pair.shift, side == Side::Stands))
            .collect()
    };
    assert_eq!(
        order(P10),
        [
            (1, 1, 1, false),
            (1, 2, 1, false),
            (2, 1, 1, false),
            (2, 2, 1, false),
            // stand 1's tie has a place for each
            (1, 1, 1, true),
            (2, 1, 1, true),
            (1, 2, 1, true),
            (2, 2, 1, true),
        ]
    );
    assert_eq!(
        order(SHIFTS),
        [
            (1, 1, 3, false),
            (1, 1, 1, false),
            (1, 1, 1, true),
            (1, 1, 3, true),
        ]
    );
    assert_eq!(roster_ranks(&roster(P3)), [1, 1, 1, 2]);
    assert_eq!(roster_ranks(&roster(P10)), [1, 2, 1, 2, 1, 1, 1, 2]);
    assert_eq!(roster_ranks(&roster(SHIFTS_TIED)), [1, 2, 1, 1, 1, 1]);
}

/// The program's roster, plans 1-1 and 2-1.
#[test]
fn the_stated_case() {
    let roster = roster(P3);
    let (first, second) = ([1, 1, 1, 1], [1, 2, 1, 1]);
    let ranges = [1, 2, 1, 1, 1, 4, 2, 3];
    assert_eq!(
        least(&roster, &first, &second, &ranges),
        Ok((-1, vec![2, 1, 4, 2]))
    );
    let [mine, theirs] = [first, second].map(|file| plan::read(&roster, &file).expect("accepted"));
    assert_eq!(plan_vote(&roster, &mine, &theirs), 1);
    // equal ranks at the stand; surveyors face empty places, whatever their ranks
    for (ranks, vote) in [
        ([1, 1, 1, 2], 1),
        ([1, 1, 3, 3], 0),
        ([2, 1, 4, 2], -1),
        ([32, 1, 1, 2], 1),
        ([32, 1, 32, 32], 0),
    ] {
        assert_eq!(
            vote_under(&roster, &ranks, &mine, &theirs),
            vote,
            "{ranks:?}"
        );
    }
}

#[test]
fn stated_refusals() {
    let sample = roster(P3);
    #[rustfmt::skip]
    let cases: [(Bytes, u8); 16] = [
        // nothing, half a range, a range missing, also where its first byte is bad
        (&[], 1), (&[1], 1), (&[0], 1), (&[1, 2, 1, 1, 1, 4], 1), (&[1, 2, 1, 1, 1, 4, 2], 1),
        // a bad range before a missing one, and before bytes after the end
        (&[0, 1], 21), (&[1, 2, 0, 1, 1], 21), (&[1, 2, 2, 1, 1], 21), (&[1, 33], 21), (&[33, 33], 21),
        (&[0, 0], 21), (&[1, 2, 1, 1, 1, 4, 0, 3], 21), (&[1, 2, 1, 1, 1, 4, 0, 3, 7], 21),
        (&[1, 2, 1, 1, 1, 4, 2, 3, 7], 9), (&[1, 2, 1, 1, 1, 4, 2, 3], 0), (&[1, 1, 1, 32, 32, 32, 1, 32], 0),
    ];
    for (file, refusal) in cases {
        assert_eq!(number(&sample, file), refusal, "{file:?}");
    }
    // no entries: the empty file and no other
    for none in [roster(P1), roster(&without_pairs(&[8, 0], &[1]))] {
        assert_eq!(number(&none, &[]), 0);
        assert_eq!(number(&none, &[1]), 9);
        assert_eq!(number(&none, &[0, 0]), 9);
    }
}

#[test]
fn plans_before_ranges() {
    let roster = roster(P3);
    let refusal = |first: &[u8], second: &[u8], ranges: &[u8]| {
        least(&roster, first, second, ranges).map_err(Refusal::number)
    };
    let (good, taken): (&[u8], &[u8]) = (&[1, 1, 1, 1], &[1, 2, 1, 1, 1, 4, 2, 3]);
    assert_eq!(refusal(&[1, 1, 1, 2], &[1], &[0, 0]), Err(10));
    assert_eq!(refusal(good, &[1], &[0, 0]), Err(1));
    assert_eq!(refusal(good, &[1, 1, 1, 1, 0], &[]), Err(9));
    assert_eq!(refusal(good, good, &[0, 0]), Err(21));
    assert_eq!(refusal(good, good, &[]), Err(1));
    assert_eq!(refusal(good, good, taken), Ok((0, vec![1, 1, 1, 2])));
}

/// Ranges of up to three ranks, from 1 to a few and up to the highest.
fn small_ranges(random: &mut Random, count: usize) -> Vec<Range> {
    let mut choices = 1;
    let range = |_| {
        let low = random.within(&(1..=4));
        let low = if random.chance(10) { MAX_RANK - 2 } else { low };
        // no more than a few hundred choices in all
        let width = if choices < 200 { random.below(3) } else { 0 };
        choices *= width + 1;
        let high = (low + u8::try_from(width).expect("small")).min(MAX_RANK);
        Range { low, high }
    };
    (0..count).map(range).collect()
}

fn small_roster(random: &mut Random) -> Roster {
    let shape = small_shape(random);
    random::roster(random, &shape)
}

#[test]
fn the_least_of_all_choices() {
    let mut random = Random::new(211);
    let (mut choices, mut lower, mut equal) = (0, 0, 0);
    let mut rosters = 0;
    while rosters < 400 {
        let roster = small_roster(&mut random);
        if roster.pairs().is_empty() || roster.pairs().len() > 8 {
            continue;
        }
        rosters += 1;
        let [mine, theirs] = [(); 2].map(|()| random::maximal_plan(&mut random, &roster));
        let ranges = small_ranges(&mut random, entries(&roster).len());
        let files = [&mine, &theirs].map(|plan| plan::write(&roster, plan));
        let (vote, ranks) =
            least(&roster, &files[0], &files[1], &write(&ranges)).expect("accepted");
        assert!(is_choice(&ranges, &ranks));
        assert_eq!(vote_under(&roster, &ranks, &mine, &theirs), vote);
        let mut least_found = i16::MAX;
        for_each_choice(&ranges, &mut |ranks| {
            least_found = least_found.min(vote_under(&roster, ranks, &mine, &theirs));
            choices += 1;
        });
        assert_eq!(least_found, vote, "{roster:?} {ranges:?}");
        lower += usize::from(vote < plan_vote(&roster, &mine, &theirs));
        equal += usize::from(ranks.windows(2).any(|two| two[0] == two[1]));
    }
    println!("{choices} choices, {lower} votes below the ordinary one, {equal} with equal ranks");
    assert!(choices > 20_000 && lower > 30 && equal > 200);
}

/// What the vote under a choice is, by the fast reading.
fn fast_vote(roster: &Roster, ranks: &[u8], mine: &Plan, theirs: &Plan) -> i16 {
    let ranges: Vec<Range> = ranks.iter().copied().map(Range::settled).collect();
    let [mine, theirs] = [mine, theirs].map(|plan| plan::write(roster, plan));
    least(roster, &mine, &theirs, &write(&ranges))
        .expect("accepted")
        .0
}

#[test]
fn settled_ranges_give_the_ordinary_vote() {
    let mut random = Random::new(212);
    let mut tied = 0;
    for _ in 0..1_500 {
        let roster = small_roster(&mut random);
        let [mine, theirs] = [(); 2].map(|()| random::plan(&mut random, &roster, 60));
        let ranges = settled(&roster);
        let ranks = roster_ranks(&roster);
        let files = [&mine, &theirs].map(|plan| plan::write(&roster, plan));
        let answer = least(&roster, &files[0], &files[1], &write(&ranges));
        let ordinary = plan_vote(&roster, &mine, &theirs);
        assert_eq!(answer, Ok((ordinary, ranks.clone())));
        assert_eq!(vote_under(&roster, &ranks, &mine, &theirs), ordinary);
        let stands = roster.nodes(Side::Stands).iter();
        tied += usize::from(stands.into_iter().any(|stand| stand.list.tied.len() > 1));
    }
    println!("{tied} rosters with a tie");
    assert!(tied > 300);
}

#[test]
fn large_rosters() {
    let mut random = Random::new(213);
    for _ in 0..60 {
        let shape = random::any_shape(&mut random);
        let roster = random::roster(&mut random, &shape);
        let [mine, theirs] = [(); 2].map(|()| random::maximal_plan(&mut random, &roster));
        let any = |random: &mut Random| {
            let low = random.within(&(1..=MAX_RANK));
            let high = random.within(&(low..=MAX_RANK));
            Range { low, high }
        };
        let ranges: Vec<Range> = entries(&roster).iter().map(|_| any(&mut random)).collect();
        let files = [&mine, &theirs].map(|plan| plan::write(&roster, plan));
        let (vote, ranks) =
            least(&roster, &files[0], &files[1], &write(&ranges)).expect("accepted");
        assert!(is_choice(&ranges, &ranks));
        assert_eq!(ranks, worst_choice(&roster, &ranges, &mine, &theirs));
        assert_eq!(fast_vote(&roster, &ranks, &mine, &theirs), vote);
        for _ in 0..20 {
            let within = |range: &Range| random.within(&(range.low..=range.high));
            let other: Vec<u8> = ranges.iter().map(within).collect();
            assert!(vote <= fast_vote(&roster, &other, &mine, &theirs));
        }
    }
}

#[test]
fn damaged_files_at_every_byte() {
    let mut random = Random::new(214);
    let mut met = [0; common::NUMBERS];
    for file in [P3, P4, P10, SHIFTS] {
        let roster = roster(file);
        let ranges = small_ranges(&mut random, entries(&roster).len());
        let good = write(&ranges);
        for at in 0..good.len() {
            // cut, and each byte that matters in the place of one
            let mut files = vec![good[..at].to_vec()];
            for byte in [0, 1, 2, 31, 32, 33, 255] {
                let mut file = good.clone();
                file[at] = byte;
                files.push(file);
            }
            for file in files {
                met[usize::from(number(&roster, &file))] += 1;
            }
        }
        for _ in 0..300 {
            let mut file = good.clone();
            for _ in 0..=random.below(3) {
                if !file.is_empty() {
                    damage(&mut random, &mut file);
                }
            }
            met[usize::from(number(&roster, &file))] += 1;
        }
    }
    println!("ranges by their refusal: {met:?}");
    for number in [0, 1, 9, 21] {
        assert!(met[number] > 20, "{number}");
    }
}

#[test]
fn the_desk_and_its_buffer() {
    let (first, second, ranges): (&[u8], &[u8], &[u8]) =
        (&[1, 1, 1, 1], &[1, 2, 1, 1], &[1, 2, 1, 1, 1, 4, 2, 3]);
    let call = |desk: Desk, first: &[u8], ranges: &[u8], size: usize| {
        let mut out = vec![JUNK; size];
        let (after, answer) = desk.clone().least(first, second, ranges, &mut out);
        assert_eq!(after, desk);
        (answer.map_err(Refusal::number), out)
    };
    let (answer, out) = call(desk(P3), first, ranges, MAX_RANK_BYTES);
    assert_eq!(answer, Ok((-1, 4)));
    assert_eq!(out[..4], [2, 1, 4, 2]);
    assert!(out[4..].iter().all(|&byte| byte == JUNK));
    for (desk, first, ranges, size, number) in [
        (Desk::default(), &[][..], &[][..], 0, 13),
        (desk(P3), &[], &[], MAX_RANK_BYTES - 1, 15),
        (desk(P3), &[], &[0, 0], MAX_RANK_BYTES, 1),
        (desk(P3), first, &[0, 0], MAX_RANK_BYTES, 21),
    ] {
        let (answer, out) = call(desk, first, ranges, size);
        assert_eq!(answer, Err(number));
        assert!(out.iter().all(|&byte| byte == JUNK));
    }
}
