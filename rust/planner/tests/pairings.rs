//! Who faced whom: the pairings that comparison, verdict and proposal write,
//! against trying all pairings at every small node, and against the reference
//! written for speed up to the limits; the buffers that they need; and the
//! pairings as values.

mod calls;
mod common;
mod lent;
mod nodes;

use calls::Calls;
use common::{desk_with, desk_with_plan, number, P7_TWICE, RANKED, TIED};
use lent::{only_front, Pairings};
use nodes::{at_places, at_the_stand, for_each_shape, one_stand};
use planner::{Desk, Facing, Node, Verdict, PAIRING_BYTES, PLAN_BYTES};
use reference::fast;
use reference::limits::MAX_SHIFT;
use reference::pairings::{self, RankPair};
use reference::plan::{self, Plan};
use reference::random::{self, Random, Shape};
use reference::roster::{self, Entry, Roster, Side, SIDES};

/// What every byte of a buffer is before a call.
const BEFORE: u8 = 0xaa;

/// The pairings of both votes of a comparison; nothing but them is written.
fn compared(desk: &Desk, first: &[u8], second: &[u8], length: usize) -> [Vec<u8>; 2] {
    let mut lent = Pairings::of(BEFORE);
    let comparison = desk.compare(first, second, &mut lent.forward, &mut lent.back);
    comparison.outcome.expect("accepted");
    [lent.forward, lent.back].map(|written| {
        assert!(written[length..].iter().all(|&byte| byte == BEFORE));
        written[..length].to_vec()
    })
}

/// Bytes of a vote's pairings: two for each place.
fn length(roster: &Roster) -> usize {
    let nodes = SIDES.iter().flat_map(|&side| roster.nodes(side));
    2 * nodes.map(|node| usize::from(node.quota)).sum::<usize>()
}

/// The pairing of the one stand: the last one of a vote.
fn at_stand(roster: &Roster, mine: &[Entry], theirs: &[Entry]) -> Vec<RankPair> {
    let files = [mine, theirs].map(at_the_stand);
    let desk = desk_with(&roster::write(roster)).expect("accepted");
    let [forward, _] = compared(&desk, &files[0], &files[1], length(roster));
    let quota = usize::from(roster.node(Side::Stands, 1).quota);
    let own = &forward[forward.len() - 2 * quota..];
    own.chunks_exact(2).map(|pair| (pair[0], pair[1])).collect()
}

#[test]
fn stated_nodes() {
    // quota, entries, own ranks, the other's ranks, and the pairing
    type Case = (
        &'static str,
        u8,
        u8,
        &'static [u8],
        &'static [u8],
        &'static [RankPair],
    );
    let cases: [Case; 6] = [
        ("P7", 2, 4, &[1, 3], &[2, 4], &[(1, 4), (3, 2)]),
        ("P7 reversed", 2, 4, &[2, 4], &[1, 3], &[(2, 1), (4, 3)]),
        ("P8", 3, 3, &[1], &[2, 3], &[(1, 2), (33, 3), (33, 33)]),
        ("P9", 2, 3, &[2, 3], &[1, 2], &[(2, 2), (3, 1)]),
        // the turn that the vote finds first is (1, 5) (3, 2) (6, 4)
        (
            "not the first turn",
            3,
            6,
            &[1, 3, 6],
            &[2, 4, 5],
            &[(1, 4), (3, 2), (6, 5)],
        ),
        (
            "itself",
            3,
            3,
            &[1, 2],
            &[1, 2],
            &[(1, 1), (2, 2), (33, 33)],
        ),
    ];
    for (name, quota, entries, mine, theirs, expected) in cases {
        for shifts in 1..=MAX_SHIFT {
            let roster = one_stand(quota, entries, 0, shifts);
            let [mine, theirs] = [mine, theirs].map(|places| at_places(places, shifts));
            assert_eq!(at_stand(&roster, &mine, &theirs), expected, "{name}");
        }
    }
}

#[test]
fn stated_plans() {
    // P3: plan 1-1 against 2-1, and back
    let desk = desk_with(&RANKED).expect("accepted");
    let [forward, back] = compared(&desk, &[1, 1, 1, 1], &[1, 2, 1, 1], 6);
    assert_eq!(forward, [1, 33, 33, 1, 1, 2]);
    assert_eq!(back, [33, 1, 1, 33, 2, 1]);
    // one surveyor and one stand in two shifts, which are two pairs: the surveyor
    // and the stand have quota 2
    let parallel = [1, 2, 1, 2, 2, 0, 2, 1, 1, 1, 2, 2, 0, 2, 0, 1, 2, 1, 1];
    let desk = desk_with(&parallel).expect("accepted");
    let [forward, back] = compared(&desk, &[2, 1, 1, 1, 1, 1, 2], &[1, 1, 1, 2], 8);
    assert_eq!(forward, [1, 33, 2, 2, 1, 1, 2, 33]);
    assert_eq!(back, [2, 2, 33, 1, 1, 1, 33, 2]);
    let [forward, _] = compared(&desk, &[1, 1, 1, 1], &[1, 1, 1, 2], 8);
    assert_eq!(forward, [1, 2, 33, 33, 2, 1, 33, 33]);
}

#[test]
fn every_small_node() {
    let mut nodes = 0;
    for shifts in [1, MAX_SHIFT] {
        for places in 0..=8u8 {
            for_each_shape(places, &mut |mine, theirs| {
                let fewest = mine.len().max(theirs.len()) as u8;
                let [mine, theirs] = [mine, theirs].map(|places| at_places(places, shifts));
                for quota in fewest..=(fewest + 1).min(4) {
                    for tied in 0..=places {
                        let roster = one_stand(quota, places, tied, shifts);
                        let stand = roster.node(Side::Stands, 1);
                        assert_eq!(
                            at_stand(&roster, &mine, &theirs),
                            pairings::pairing(stand, &mine, &theirs),
                            "{stand:?}, {mine:?} against {theirs:?}"
                        );
                        nodes += 1;
                    }
                }
            });
        }
    }
    println!("{nodes} nodes");
    assert!(nodes > 10_000, "{nodes}");
}

/// A random roster up to the limits: few nodes of large quotas, or many of small
/// ones, each side for itself.
fn shape(random: &mut Random) -> Shape {
    let mut side = || {
        let most = [4, 8, 16, 32][random.below(4)];
        let quota = 64 / most.max(8);
        let least = if random.chance(50) { 0 } else { quota };
        (most, least..=quota)
    };
    let ((surveyors, quotas_s), (stands, quotas_t)) = (side(), side());
    let shifts = random.within(&(1..=MAX_SHIFT));
    Shape {
        counts: [surveyors / 2..=surveyors, stands / 2..=stands],
        quotas: [quotas_s, quotas_t],
        shifts,
        pairs: [70, 100][random.below(2)] / shifts,
        ties: 50,
        opposed: 20,
    }
}

/// The reference's pairings of one plan's vote against another.
fn expected(instance: &fast::roster::Instance, plans: [&fast::plan::Chosen; 2]) -> Vec<u8> {
    let mut out = [0; PAIRING_BYTES];
    let length = fast::pairing::write(instance, plans[0], plans[1], &mut out);
    out[..length].to_vec()
}

#[test]
fn random_plans_up_to_the_limits() {
    let mut random = Random::new(208);
    let mut longest = 0;
    for _ in 0..3_000 {
        let shape = shape(&mut random);
        let roster = random::roster(&mut random, &shape);
        let file = roster::write(&roster);
        let instance = fast::roster::read(&file).expect("accepted");
        let mut desk = desk_with(&file).expect("accepted");
        let files: [Vec<u8>; 4] = [(); 4].map(|()| {
            let percent = [60, 100][random.below(2)];
            plan::write(&roster, &random::plan(&mut random, &roster, percent))
        });
        let read = |file: &Vec<u8>| fast::plan::read(&instance, file).expect("accepted");
        let chosen: Vec<_> = files.iter().map(read).collect();
        for (first, second) in [(0, 1), (2, 3), (1, 2), (3, 3)] {
            let plans = [&chosen[first], &chosen[second]];
            let [own, other] = compared(&desk, &files[first], &files[second], length(&roster));
            assert_eq!(own, expected(&instance, plans), "{file:?} {files:?}");
            assert_eq!(other, expected(&instance, [plans[1], plans[0]]));
            longest = longest.max(own.len());
        }
        // proposed beside another they are the same
        desk.load_plan(&files[1]).expect("accepted");
        let mut lent = Pairings::of(BEFORE);
        let votes = desk.propose(&files[0], &mut lent.forward, &mut lent.back);
        votes.expect("accepted");
        let before = [BEFORE; PAIRING_BYTES];
        let forth = expected(&instance, [&chosen[0], &chosen[1]]);
        only_front(&before, &lent.forward, &forth);
        let returned = expected(&instance, [&chosen[1], &chosen[0]]);
        only_front(&before, &lent.back, &returned);
    }
    println!("longest pairings {longest} bytes");
    assert_eq!(longest, PAIRING_BYTES);
}

/// The rival that a verdict wrote, and whether the pairings are those of the vote
/// against it.
fn check_verdict(desk: &Desk, roster: &Roster, held: &Plan) -> Verdict {
    let (mut rival, mut pairing) = ([BEFORE; PLAN_BYTES], [BEFORE; PAIRING_BYTES]);
    let verdict = desk
        .judge(&mut rival, &mut pairing)
        .expect("a plan is held");
    if verdict == Verdict::Strong {
        assert_eq!(
            (rival, pairing),
            ([BEFORE; PLAN_BYTES], [BEFORE; PAIRING_BYTES])
        );
        return verdict;
    }
    let rival = plan::read(roster, common::plan_front(&rival)).expect("a plan");
    let faced = pairings::bytes(roster, held, &rival);
    only_front(&[BEFORE; PAIRING_BYTES], &pairing, &faced);
    verdict
}

#[test]
fn verdicts_of_small_rosters() {
    let mut random = Random::new(209);
    // strong, popular, beaten
    let mut met = [0usize; 3];
    for _ in 0..10_000 {
        let shape = random::small_shape(&mut random);
        let roster = random::roster(&mut random, &shape);
        let held = random::plan(&mut random, &roster, 90);
        let file = plan::write(&roster, &held);
        let desk = desk_with_plan(&roster::write(&roster), &file).expect("accepted");
        let verdict = check_verdict(&desk, &roster, &held);
        met[match verdict {
            Verdict::Strong => 0,
            Verdict::Popular { .. } => 1,
            Verdict::Beaten { .. } => 2,
        }] += 1;
    }
    println!("strong, popular, beaten: {met:?}");
    assert!(met.iter().all(|&times| times > 300), "{met:?}");
}

#[test]
fn buffers_below_their_size() {
    let one: &[u8] = &[1, 1, 1, 1];
    let mut desk = desk_with_plan(&TIED, one).expect("accepted");
    for short in 0..2 {
        let mut sizes = [PAIRING_BYTES; 2];
        sizes[short] -= 1;
        let [mut forward, mut back] = sizes.map(|size| vec![BEFORE; size]);
        // before the first file is looked at, whose empty part it answers with
        for files in [[one, one], [&[65], &[]]] {
            let compared = desk.compare(files[0], files[1], &mut forward, &mut back);
            assert_eq!(number(&compared.outcome), 15);
            assert_eq!(
                (compared.part.as_ptr(), compared.part.len()),
                (files[0].as_ptr(), 0)
            );
            assert_eq!(number(&desk.propose(files[0], &mut forward, &mut back)), 15);
        }
        assert!(forward.iter().chain(&back).all(|&byte| byte == BEFORE));
    }
    let (mut rival, mut pairing) = ([BEFORE; PLAN_BYTES], [BEFORE; PAIRING_BYTES]);
    let answer = desk.judge(&mut rival, &mut pairing[..PAIRING_BYTES - 1]);
    assert_eq!(number(&answer), 15);
    let answer = desk.judge(&mut rival[..PLAN_BYTES - 1], &mut pairing);
    assert_eq!(number(&answer), 15);
    assert!(rival.iter().chain(&pairing).all(|&byte| byte == BEFORE));
    // 13 and then 14 before it
    let mut empty = Desk::open();
    assert_eq!(
        number(&empty.compare(&[], &[], &mut [], &mut []).outcome),
        13
    );
    assert_eq!(number(&empty.propose(&[], &mut [], &mut [])), 13);
    let mut without = desk_with(&TIED).expect("accepted");
    assert_eq!(number(&without.propose(&[], &mut [], &mut [])), 14);
    assert_eq!(number(&without.judge(&mut [], &mut [])), 14);
    assert_eq!(
        number(&without.compare(&[65], &[], &mut [], &mut []).outcome),
        15
    );
}

#[test]
fn refused_files_write_nothing() {
    let one: &[u8] = &[1, 1, 1, 1];
    let refused: [&[u8]; 4] = [&[], &[65], &[1, 3, 1, 1], &[0, 0]];
    for bad in refused {
        for files in [[bad, one], [one, bad]] {
            let desk = calls::Desk(desk_with_plan(&TIED, one).expect("accepted"));
            let mut lent = Pairings::of(BEFORE);
            let (desk, (answer, _)) = desk.compare(files[0], files[1], lent.lend());
            assert!(answer.is_err(), "{files:?}");
            let (_, answer) = desk.propose(bad, lent.lend());
            assert!(answer.is_err(), "{bad:?}");
            assert_eq!(lent, Pairings::of(BEFORE));
        }
    }
}

#[test]
fn pairings_as_values() {
    let desk = desk_with(P7_TWICE).expect("accepted");
    let better = [2, 1, 1, 1, 3, 1, 1];
    let worse = [2, 2, 1, 1, 4, 1, 1];
    let mut lent = Pairings::of(BEFORE);
    let compared = desk.compare(&better, &worse, &mut lent.forward, &mut lent.back);
    assert_eq!(compared.outcome.expect("accepted").first, 0);
    let faced = desk.pairings(&lent.forward).expect("a roster is held");
    let named: Vec<Node> = faced.iter().map(|pairing| pairing.node).collect();
    let surveyors = (1..=8).map(Node::Surveyor);
    assert!(surveyors.chain((1..=2).map(Node::Stand)).eq(named));
    let facing = |own, other| Facing { own, other };
    assert_eq!(faced[0].places, [facing(Some(1), None)]);
    assert_eq!(faced[1].places, [facing(None, Some(1))]);
    let stand = [facing(Some(1), Some(4)), facing(Some(3), Some(2))];
    assert_eq!(faced[8].places, stand);
    assert_eq!(faced[9].places, [facing(None, None); 2]);
    // each vote's own ranks come first
    let back = desk.pairings(&lent.back).expect("a roster is held");
    let stand = [facing(Some(2), Some(1)), facing(Some(4), Some(3))];
    assert_eq!(back[8].places, stand);
    assert_eq!(number(&Desk::open().pairings(&lent.forward)), 13);
}
