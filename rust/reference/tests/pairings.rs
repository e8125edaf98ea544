//! Who faced whom: the stated nodes, what holds of every pairing, and the fast
//! reading against trying all pairings.

mod common;

use common::{P3, P7, P8, P9};
use reference::fast;
use reference::limits::{EMPTY_RANK, MAX_PAIRING_BYTES};
use reference::pairings::{self, pairing, RankPair};
use reference::plan::{self, Plan};
use reference::random::{self, Random, Shape};
use reference::roster::{self, Entry, List, Node, Roster, SIDES};
use reference::votes::{node_vote, rank, rank_vote};

/// A node that ranks so many entries in their order, the last `tied` of them
/// alike. What its entries are called is nobody's concern.
fn node(quota: u8, entries: u8, tied: u8) -> Node {
    let mut strict: Vec<Entry> = (1..=entries).map(entry).collect();
    let tied = strict.split_off(usize::from(entries - tied));
    Node {
        quota,
        list: List { strict, tied },
    }
}

fn entry(number: u8) -> Entry {
    Entry { number, shift: 1 }
}

fn entries(places: &[u8]) -> Vec<Entry> {
    places.iter().copied().map(entry).collect()
}

#[test]
fn stated_nodes() {
    // quota, entries, own ranks, the other's ranks, and the pairing
    type Case = (
        &'static str,
        u8,
        &'static [u8],
        &'static [u8],
        &'static [RankPair],
    );
    let cases: [Case; 6] = [
        ("P7", 2, &[1, 3], &[2, 4], &[(1, 4), (3, 2)]),
        ("P7 reversed", 2, &[2, 4], &[1, 3], &[(2, 1), (4, 3)]),
        ("P8", 3, &[1], &[2, 3], &[(1, 2), (33, 3), (33, 33)]),
        ("P9", 2, &[2, 3], &[1, 2], &[(2, 2), (3, 1)]),
        // the pairing found by turning is (1, 5) (3, 2) (6, 4)
        (
            "not the first turn",
            3,
            &[1, 3, 6],
            &[2, 4, 5],
            &[(1, 4), (3, 2), (6, 5)],
        ),
        ("itself", 3, &[1, 2], &[1, 2], &[(1, 1), (2, 2), (33, 33)]),
    ];
    for (name, quota, mine, theirs, expected) in cases {
        let found = pairing(&node(quota, 6, 0), &entries(mine), &entries(theirs));
        assert_eq!(found, expected, "{name}");
    }
    assert_eq!(pairing(&node(0, 3, 0), &[], &[]), []);
    // ranks tell tied entries apart no more: the shared one faces itself
    let tied = pairing(&node(2, 3, 3), &entries(&[1, 2]), &entries(&[2, 3]));
    assert_eq!(tied, [(1, 1), (1, 1)]);
}

/// The pairings of two plans of a roster, from their files.
fn of_files(file: &[u8], first: &[u8], second: &[u8]) -> Vec<u8> {
    let roster = roster::read(file).expect("accepted");
    let [first, second] = [first, second].map(|file| plan::read(&roster, file).expect("accepted"));
    pairings::bytes(&roster, &first, &second)
}

#[test]
fn stated_plans() {
    assert_eq!(
        of_files(P3, &[1, 1, 1, 1], &[1, 2, 1, 1]),
        [1, 33, 33, 1, 1, 2]
    );
    // the surveyors come first: who is had, who is not
    let p7 = of_files(P7, &[2, 1, 1, 1, 3, 1, 1], &[2, 2, 1, 1, 4, 1, 1]);
    assert_eq!(p7, [1, 33, 33, 1, 1, 33, 33, 1, 1, 4, 3, 2]);
    let p8 = of_files(P8, &[1, 1, 1, 1], &[2, 2, 1, 1, 3, 1, 1]);
    assert_eq!(p8, [1, 33, 33, 1, 33, 1, 1, 2, 33, 3, 33, 33]);
    let p9 = of_files(P9, &[2, 2, 1, 1, 3, 1, 1], &[2, 1, 1, 1, 2, 1, 1]);
    assert_eq!(p9, [33, 1, 1, 1, 1, 33, 2, 2, 3, 1]);
}

/// What holds of a pairing for itself: as many places as the quota, in order, the
/// two plans' ranks, and votes that add up to the node's.
fn check_laws(node: &Node, mine: &[Entry], theirs: &[Entry], pairs: &[RankPair]) {
    assert_eq!(pairs.len(), usize::from(node.quota));
    assert!(pairs.windows(2).all(|two| two[0] <= two[1]), "{pairs:?}");
    let votes: i16 = pairs
        .iter()
        .map(|&(own, other)| rank_vote(own, other))
        .sum();
    assert_eq!(votes, node_vote(node, mine, theirs));
    let ranks = |entries: &[Entry]| {
        let filled = entries.iter().map(|&entry| rank(&node.list, Some(entry)));
        let mut ranks: Vec<u8> = filled.collect();
        ranks.resize(usize::from(node.quota), EMPTY_RANK);
        ranks.sort_unstable();
        ranks
    };
    let mut others: Vec<u8> = pairs.iter().map(|&(_, other)| other).collect();
    others.sort_unstable();
    assert!(pairs.iter().map(|&(own, _)| own).eq(ranks(mine)));
    assert_eq!(others, ranks(theirs));
}

/// The fast reading's pairings of two plans.
fn by_the_fast(roster: &Roster, plan: &Plan, rival: &Plan) -> Vec<u8> {
    let instance = fast::roster::read(&roster::write(roster)).expect("accepted");
    let chosen = |plan| fast::plan::read(&instance, &plan::write(roster, plan)).expect("accepted");
    let mut out = [0xaa; MAX_PAIRING_BYTES];
    let length = fast::pairing::write(&instance, &chosen(plan), &chosen(rival), &mut out);
    assert!(out[length..].iter().all(|&byte| byte == 0xaa));
    out[..length].to_vec()
}

#[test]
fn random_plans() {
    let mut random = Random::new(208);
    let (mut nodes, mut several) = (0usize, 0usize);
    for _ in 0..6_000 {
        let shifts = random.within(&(1..=3));
        let shape = Shape {
            counts: [1..=4, 1..=4],
            quotas: [0..=5, 0..=5],
            shifts,
            pairs: [100, 60, 40][usize::from(shifts) - 1],
            ties: 50,
            opposed: 30,
        };
        let roster = random::roster(&mut random, &shape);
        let [plan, rival] = [(); 2].map(|()| random::plan(&mut random, &roster, 90));
        let bytes = pairings::bytes(&roster, &plan, &rival);
        assert_eq!(bytes, by_the_fast(&roster, &plan, &rival), "{roster:?}");
        assert_eq!(bytes, pairings::bytes_large(&roster, &plan, &rival));
        assert!(bytes.iter().all(|byte| (1..=EMPTY_RANK).contains(byte)));
        for side in SIDES {
            for (number, node) in (1..).zip(roster.nodes(side)) {
                let [mine, theirs] =
                    [&plan, &rival].map(|plan| plan.entries(&roster, side, number));
                let pairs = pairing(node, &mine, &theirs);
                check_laws(node, &mine, &theirs, &pairs);
                nodes += 1;
                several += usize::from(mine.len().min(theirs.len()) > 1);
            }
        }
    }
    println!("{nodes} nodes, {several} of them with two entries on each side");
    assert!(several > 5_000);
}

/// Every way to give each of up to eight places to the first plan, the second,
/// both or neither, with at most four for each plan.
#[test]
fn every_small_node() {
    let mut nodes = 0;
    for code in 0..4usize.pow(8) {
        let label = |place: u8| code / 4usize.pow(u32::from(place) - 1) % 4;
        let with = |bit: usize| -> Vec<u8> {
            let all = 1..=8u8;
            all.filter(|&place| label(place) >> bit & 1 == 1).collect()
        };
        let (mine, theirs) = (with(0), with(1));
        let fewest = mine.len().max(theirs.len());
        if fewest > 4 {
            continue;
        }
        let (mine, theirs) = (entries(&mine), entries(&theirs));
        let node = node(fewest as u8, 8, (code % 5) as u8);
        let pairs = pairing(&node, &mine, &theirs);
        check_laws(&node, &mine, &theirs, &pairs);
        nodes += 1;
    }
    println!("{nodes} nodes");
    assert!(nodes > 10_000);
}
