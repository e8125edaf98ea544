//! The proved comparison and blocking pair against the reference: votes of
//! every two ranks, node votes of every small shape, random plan pairs on
//! rosters up to the limits, who wins and the winner's part, and the order of
//! refusals.

mod common;
mod nodes;

use common::{compared, desk_with, desk_with_plan, same_refusal, BEAT_EACH_OTHER, P7_TWICE};
use nodes::{at_place, at_places, at_the_stand, for_each_shape, one_stand};
use planner::{Desk, Votes, Winner};
use reference::blocking::{blocking_pairs, first_blocking_pair};
use reference::compare::{self, File};
use reference::fast;
use reference::limits::{EMPTY_RANK, MAX_SHIFT};
use reference::plan::{self, Plan};
use reference::random::{self, Random, Shape};
use reference::roster::{self, Entry, Pair, Roster, Side};
use reference::votes::{node_vote, plan_vote, rank, rank_vote};

fn held(roster: &Roster) -> Desk {
    desk_with(&roster::write(roster)).expect("accepted")
}

fn votes(desk: &Desk, first: &[u8], second: &[u8]) -> Votes {
    let comparison = compared(desk, first, second);
    let votes = comparison.outcome.expect("accepted");
    check_winner(votes, comparison.part, first, second);
    votes
}

/// A plan wins if the other's vote against it is below zero, and the part is the
/// only winner's pair bytes in its own file; where both win, or neither, nothing
/// at the first file's start.
fn check_winner(votes: Votes, part: &[u8], first: &[u8], second: &[u8]) {
    let (winner, bytes) = match (votes.second < 0, votes.first < 0) {
        (true, false) => (Winner::First, &first[1..]),
        (false, true) => (Winner::Second, &second[1..]),
        (true, true) => (Winner::Both, &first[..0]),
        (false, false) => (Winner::Neither, &first[..0]),
    };
    assert_eq!(votes.winner, winner);
    assert_eq!((part.as_ptr(), part.len()), (bytes.as_ptr(), bytes.len()));
}

/// How often each answer came: first, second, both, neither; and how often the
/// winner is not the plan whose own vote is above zero, as it was before W-206.
#[derive(Debug, Default)]
struct Winners {
    met: [usize; 4],
    changed: usize,
}

impl Winners {
    fn count(&mut self, votes: Votes) {
        let (winner, above) = match votes.winner {
            Winner::First => (0, votes.first > 0),
            Winner::Second => (1, votes.second > 0),
            Winner::Both => (2, false),
            Winner::Neither => (3, true),
        };
        self.met[winner] += 1;
        self.changed += usize::from(!above);
    }
}

/// The stand's vote alone: the surveyors' votes are taken off, each by all
/// pairings.
fn stand_vote(roster: &Roster, mine: &[Entry], theirs: &[Entry]) -> i16 {
    let files = [mine, theirs].map(at_the_stand);
    let vote = votes(&held(roster), &files[0], &files[1]).first;
    let plans = files.map(|file| plan::read(roster, &file).expect("accepted"));
    let surveyors = (1..).zip(roster.nodes(Side::Surveyors));
    let own = surveyors.map(|(number, node)| {
        let [mine, theirs] =
            [&plans[0], &plans[1]].map(|plan| plan.entries(roster, Side::Surveyors, number));
        node_vote(node, &mine, &theirs)
    });
    vote - own.sum::<i16>()
}

#[test]
fn stated_node_votes() {
    // what a stand with a quota and so many entries has: the places of one plan, and of another
    type Places = [&'static [u8]; 2];
    let cases: [(&str, u8, u8, Places, i16); 5] = [
        ("P7", 2, 4, [&[1, 3], &[2, 4]], 0),
        ("P7 reversed", 2, 4, [&[2, 4], &[1, 3]], -2),
        ("P8", 3, 3, [&[1], &[2, 3]], 0),
        ("P9", 2, 3, [&[2, 3], &[1, 2]], -1),
        ("P9 reversed", 2, 3, [&[1, 2], &[2, 3]], 1),
    ];
    for (name, quota, entries, places, vote) in cases {
        for shifts in 1..=MAX_SHIFT {
            let roster = one_stand(quota, entries, 0, shifts);
            let [mine, theirs] = places.map(|places| at_places(places, shifts));
            assert_eq!(stand_vote(&roster, &mine, &theirs), vote, "{name} {shifts}");
        }
    }
}

/// Two ranks at a stand that can have one of 32 entries: the roster, and the entry
/// of each rank, none for that of an empty place. Two entries of one rank are
/// tied behind all better ones; the last rank has one entry only.
fn with_ranks(mine: u8, theirs: u8, shifts: u8) -> (Roster, [Option<Entry>; 2]) {
    const LAST: u8 = EMPTY_RANK - 1;
    let (tied, second) = if mine == theirs && mine < LAST {
        (LAST - mine + 1, mine + 1)
    } else {
        (0, theirs)
    };
    let entries = [mine, second].map(|place| (place <= LAST).then(|| at_place(place, shifts)));
    (one_stand(1, LAST, tied, shifts), entries)
}

#[test]
fn votes_of_every_two_ranks() {
    let mut different = 0;
    for shifts in [1, MAX_SHIFT] {
        for mine in 1..=EMPTY_RANK {
            for theirs in 1..=EMPTY_RANK {
                let (roster, entries) = with_ranks(mine, theirs, shifts);
                let list = &roster.node(Side::Stands, 1).list;
                assert_eq!(entries.map(|entry| rank(list, entry)), [mine, theirs]);
                let [first, second] = entries.map(Vec::from_iter);
                let vote = stand_vote(&roster, &first, &second);
                assert_eq!(vote, rank_vote(mine, theirs), "{mine} against {theirs}");
                different += usize::from(first != second);
            }
        }
    }
    // all but the last rank and the empty place against themselves
    assert_eq!(different, 2 * (33 * 33 - 2));
}

#[test]
fn node_votes_of_every_small_shape() {
    let mut shapes = 0;
    let mut met = [0usize; 11];
    let mut check = |roster: &Roster, mine: &[Entry], theirs: &[Entry]| {
        let vote = stand_vote(roster, mine, theirs);
        let stand = roster.node(Side::Stands, 1);
        assert_eq!(
            vote,
            node_vote(stand, mine, theirs),
            "{stand:?}, {mine:?} against {theirs:?}"
        );
        shapes += 1;
        met[(vote + 5) as usize] += 1;
    };
    for shifts in [1, MAX_SHIFT] {
        for places in 0..=8u8 {
            for_each_shape(places, &mut |mine, theirs| {
                let fewest = mine.len().max(theirs.len()) as u8;
                let [mine, theirs] = [mine, theirs].map(|places| at_places(places, shifts));
                for quota in fewest..=5 {
                    for tied in 0..=places {
                        let roster = one_stand(quota, places, tied, shifts);
                        check(&roster, &mine, &theirs);
                    }
                }
            });
        }
    }
    println!("{shapes} shapes, votes from -5 to 5: {met:?}");
    assert_eq!(shapes, 2 * 12_472);
    // four pairs a side at most, so votes from -4 to 4
    assert!(met[1..10].iter().all(|&times| times > 0));
}

/// Random rosters up to the limits: few nodes of large quotas, or many of
/// small ones, each side for itself.
fn shape(random: &mut Random, nodes: &[u8]) -> Shape {
    let mut side = || {
        let most = nodes[random.below(nodes.len())];
        let quota = 64 / most.max(8);
        let least = if random.chance(50) { 0 } else { quota };
        (most, least..=quota)
    };
    let ((surveyors, quotas_s), (stands, quotas_t)) = (side(), side());
    let shifts = random.within(&(1..=MAX_SHIFT));
    Shape {
        counts: [surveyors / 2..=surveyors, stands / 2..=stands],
        quotas: [quotas_s, quotas_t],
        shifts,
        pairs: [30, 70, 100][random.below(3)] / shifts,
        ties: 50,
        opposed: 20,
    }
}

/// A random plan within the quotas, as its file.
fn some_plan(random: &mut Random, roster: &Roster) -> Vec<u8> {
    let mut order: Vec<usize> = (0..roster.pairs().len()).collect();
    random.shuffle(&mut order);
    let percent = [30, 80, 100][random.below(3)];
    let mut room = [Side::Surveyors, Side::Stands]
        .map(|side| -> Vec<u8> { roster.nodes(side).iter().map(|node| node.quota).collect() });
    let mut chosen: Vec<usize> = Vec::new();
    for index in order {
        let pair = roster.pairs()[index];
        let (s, t) = (usize::from(pair.surveyor) - 1, usize::from(pair.stand) - 1);
        if room[0][s] > 0 && room[1][t] > 0 && random.chance(percent) {
            room[0][s] -= 1;
            room[1][t] -= 1;
            chosen.push(index);
        }
    }
    plan::write(roster, &chosen.into_iter().collect())
}

/// Compares that many plan pairs, several on each roster, with the reference
/// written for speed.
fn compare_random_plans(seed: u64, nodes: &[u8], plans: usize, pairs: usize) {
    let mut random = Random::new(seed);
    let (mut done, mut less, mut largest) = (0, 0, 0);
    let mut winners = Winners::default();
    while done < pairs {
        let shape = shape(&mut random, nodes);
        let roster = random::roster(&mut random, &shape);
        let bytes = roster::write(&roster);
        let instance = fast::roster::read(&bytes).expect("accepted");
        let desk = desk_with(&bytes).expect("accepted");
        let files: Vec<_> = (0..plans)
            .map(|_| some_plan(&mut random, &roster))
            .collect();
        let read = |file: &Vec<u8>| fast::plan::read(&instance, file).expect("accepted");
        let chosen: Vec<_> = files.iter().map(read).collect();
        for first in 0..plans {
            for second in 0..first {
                let votes = votes(&desk, &files[first], &files[second]);
                let vote = |a, b| fast::vote::vote(&instance, &chosen[a], &chosen[b]);
                assert_eq!(
                    (votes.first, votes.second),
                    (vote(first, second), vote(second, first)),
                    "{bytes:?} {:?} {:?}",
                    files[first],
                    files[second]
                );
                assert!(votes.first + votes.second <= 0);
                less += usize::from(votes.first + votes.second < 0);
                winners.count(votes);
                largest = largest.max(files[first].len());
                done += 1;
            }
        }
    }
    println!("{done} plan pairs; both votes added to less than zero {less} times; largest plan file {largest} bytes; {winners:?}");
    assert!(less > done / 20, "{less}");
    assert!(largest > 60, "{largest}");
    assert!(winners.met.iter().all(|&times| times > 500), "{winners:?}");
    assert!(winners.changed > winners.met[2], "{winners:?}");
}

#[test]
fn random_plan_pairs() {
    compare_random_plans(61, &[4, 6, 8], 8, 500_000);
}

#[test]
fn more_random_plan_pairs() {
    compare_random_plans(62, &[2, 8, 12], 8, 400_000);
}

#[test]
fn random_plan_pairs_up_to_the_limits() {
    compare_random_plans(63, &[8, 16, 32], 12, 120_000);
}

#[test]
fn all_plans_of_small_rosters() {
    let mut random = Random::new(64);
    let mut pairs = 0;
    let mut winners = Winners::default();
    for _ in 0..3_000 {
        let shifts = random.within(&(1..=MAX_SHIFT));
        let shape = Shape {
            counts: [1..=3, 1..=3],
            quotas: [0..=3, 0..=3],
            shifts,
            pairs: 70 / shifts,
            ties: 50,
            opposed: 20,
        };
        let roster = random::roster(&mut random, &shape);
        if roster.pairs().len() > 5 {
            continue;
        }
        let desk = held(&roster);
        let plans = reference::plans::all_plans(&roster);
        for mine in &plans {
            for theirs in &plans {
                let [a, b] = [mine, theirs].map(|plan| plan::write(&roster, plan));
                let votes = votes(&desk, &a, &b);
                assert_eq!(votes.first, plan_vote(&roster, mine, theirs));
                assert_eq!(votes.second, plan_vote(&roster, theirs, mine));
                assert!(mine != theirs || votes.winner == Winner::Neither);
                winners.count(votes);
                pairs += 1;
            }
        }
    }
    println!("{pairs} plan pairs against all pairings; {winners:?}");
    assert!(pairs > 40_000);
    assert!(winners.met.iter().all(|&times| times > 10), "{winners:?}");
}

#[test]
fn all_four_answers() {
    // a plan that votes 0 at its stand is beaten by nobody there, but beats
    let better: &[u8] = &[2, 1, 1, 1, 3, 1, 1];
    let worse: &[u8] = &[2, 2, 1, 1, 4, 1, 1];
    let [here, there] = BEAT_EACH_OTHER;
    let cases = [
        (better, worse, [0, -2], Winner::First),
        (worse, better, [-2, 0], Winner::Second),
        (here, there, [-2, -2], Winner::Both),
        (there, here, [-2, -2], Winner::Both),
        (here, here, [0, 0], Winner::Neither),
    ];
    let desk = desk_with(P7_TWICE).expect("accepted");
    for (first, second, expected, winner) in cases {
        // the part is looked at there
        let votes = votes(&desk, first, second);
        assert_eq!([votes.first, votes.second], expected);
        assert_eq!(votes.winner, winner);
    }
}

/// One damage: a byte changed, dropped or added, or the file cut.
fn damage(random: &mut Random, file: &mut Vec<u8>) {
    if file.is_empty() {
        return file.push(random.below(256) as u8);
    }
    let at = random.below(file.len());
    match random.below(5) {
        0 => file[at] = random.below(34) as u8,
        1 => file[at] = file[at].wrapping_add(1),
        2 => file.truncate(at),
        3 => file.push(random.below(34) as u8),
        _ => drop(file.remove(at)),
    }
}

#[test]
fn damaged_files_are_refused_in_their_order() {
    let mut random = Random::new(65);
    // refused: the roster, the first file, the second file; accepted
    let mut met = [0usize; 4];
    for _ in 0..200_000 {
        // the reference tries all pairings here, so quotas are small
        let mut shape = shape(&mut random, &[2, 4]);
        shape.quotas = [0..=3, 0..=3];
        let roster = random::roster(&mut random, &shape);
        let [mut first, mut second] = [(); 2].map(|()| some_plan(&mut random, &roster));
        let mut bytes = roster::write(&roster);
        for file in [&mut bytes, &mut first, &mut second] {
            if random.chance(30) {
                damage(&mut random, file);
            }
        }
        let mut desk = Desk::open();
        let loaded = desk.load_roster(&bytes);
        let ours = compared(&desk, &first, &second);
        let roster = match roster::read(&bytes) {
            Ok(roster) => roster,
            Err(refusal) => {
                same_refusal(loaded.expect_err("a refused roster"), refusal);
                assert_eq!(ours.outcome.expect_err("nothing loaded").number, 13);
                check_empty(ours.part, &first);
                met[0] += 1;
                continue;
            }
        };
        let theirs = compare::compare(&roster, &first, &second);
        let file = match theirs.part.file {
            File::First => &first,
            File::Second => &second,
        };
        let part = &file[theirs.part.range.clone()];
        assert_eq!(
            (ours.part.as_ptr(), ours.part.len()),
            (part.as_ptr(), part.len())
        );
        match (ours.outcome, theirs.outcome) {
            (Ok(ours), Ok(theirs)) => {
                assert_eq!(ours.first, theirs.first_against_second);
                assert_eq!(ours.second, theirs.second_against_first);
                met[3] += 1;
            }
            (Err(ours), Err(theirs)) => {
                same_refusal(ours, theirs);
                met[1 + usize::from(plan::read(&roster, &first).is_ok())] += 1;
            }
            (ours, theirs) => panic!("{ours:?} {theirs:?} {bytes:?} {first:?} {second:?}"),
        }
    }
    println!("refused: roster, first file, second file; accepted: {met:?}");
    assert!(met.iter().all(|&times| times > 5_000));
}

fn check_empty(part: &[u8], first: &[u8]) {
    assert_eq!((part.as_ptr(), part.len()), (first.as_ptr(), 0));
}

#[test]
fn no_roster_and_two_refused_files() {
    // no roster, then the first file's refusal, then the second's
    let roster = held(&one_stand(1, 2, 0, 1));
    let number = |desk: &Desk, first: &[u8], second: &[u8]| {
        let comparison = compared(desk, first, second);
        check_empty(comparison.part, first);
        comparison.outcome.expect_err("refused").number
    };
    assert_eq!(number(&Desk::open(), &[65], &[]), 13);
    assert_eq!(number(&roster, &[65], &[]), 2);
    assert_eq!(number(&roster, &[1, 3, 1, 1], &[]), 10);
    assert_eq!(number(&roster, &[2, 1, 1, 1, 2, 1, 1], &[]), 12);
    assert_eq!(number(&roster, &[1, 2, 1, 1], &[]), 1);
    assert_eq!(number(&roster, &[0], &[2, 2, 1, 1, 1, 1, 1]), 11);
    assert_eq!(number(&roster, &[0], &[0, 0]), 9);
}

#[test]
fn blocking_pairs_of_random_plans() {
    let mut random = Random::new(66);
    // a pair, none, refused
    let mut met = [0usize; 3];
    // the pair shown is not the lowest one; nor the one of the lowest stand,
    // the best in a stand's list, or the best rank of all
    let mut apart = [0usize; 4];
    for _ in 0..40_000 {
        let shape = shape(&mut random, &[2, 4, 6]);
        let roster = random::roster(&mut random, &shape);
        let bytes = roster::write(&roster);
        for _ in 0..6 {
            let mut file = some_plan(&mut random, &roster);
            if random.chance(10) {
                damage(&mut random, &mut file);
            }
            let ours = desk_with_plan(&bytes, &file).and_then(|desk| desk.blocking());
            let theirs = plan::read(&roster, &file);
            match (ours, theirs) {
                (Ok(shown), Ok(plan)) => {
                    let first = first_blocking_pair(&roster, &plan);
                    let numbers = first.map(|pair| (pair.surveyor, pair.stand, pair.shift));
                    assert_eq!(shown, numbers, "{bytes:?} {file:?}");
                    assert_eq!(shown, fast_blocking_pair(&bytes, &file));
                    met[usize::from(shown.is_none())] += 1;
                    for (times, other) in apart.iter_mut().zip(other_firsts(&roster, &plan)) {
                        *times += usize::from(other != first);
                    }
                }
                (Err(ours), Err(theirs)) => {
                    same_refusal(ours, theirs);
                    met[2] += 1;
                }
                (ours, theirs) => panic!("{ours:?} {theirs:?} {bytes:?} {file:?}"),
            }
        }
    }
    println!("a pair, none, refused: {met:?}; not what other orders show: {apart:?}");
    assert!(met.iter().all(|&times| times > 5_000));
    assert!(apart.iter().all(|&times| times > 5_000));
    assert_eq!(desk_with_plan(&[33], &[65]).unwrap_err().number, 2);
    assert_eq!(desk_with_plan(&[1, 9], &[65]).unwrap_err().number, 3);
}

fn fast_blocking_pair(roster: &[u8], plan: &[u8]) -> Option<(u8, u8, u8)> {
    let instance = fast::roster::read(roster).expect("accepted");
    let chosen = fast::plan::read(&instance, plan).expect("accepted");
    fast::blocking::first(&instance, &chosen)
}

/// The pairs that other readings of "the first" would show: the lowest pair,
/// the lowest stand's, the lowest surveyor's best in the stand's list, and the
/// best rank before the lowest surveyor.
fn other_firsts(roster: &Roster, plan: &Plan) -> [Option<Pair>; 4] {
    let pairs = blocking_pairs(roster, plan).into_iter();
    let pairs: Vec<Pair> = pairs.map(|pair| roster.pairs()[pair]).collect();
    let rank = |pair: &Pair, side: Side| {
        let list = &roster.node(side, pair.end(side)).list;
        rank(list, Some(pair.entry(side)))
    };
    [
        pairs.first().copied(),
        pairs
            .iter()
            .copied()
            .min_by_key(|pair| (pair.stand, pair.surveyor)),
        pairs
            .iter()
            .copied()
            .min_by_key(|pair| (pair.surveyor, rank(pair, Side::Stands))),
        pairs
            .iter()
            .copied()
            .min_by_key(|pair| (rank(pair, Side::Surveyors), pair.surveyor)),
    ]
}
