//! Nine-day sheets (W-209): "one day byte for each entry in the plan's order",
//! "no surveyor and no stand has two entries on one day", "the days used are as
//! many as the busiest node has entries". Which spreading is open: here the days
//! are filled one after another, each with as many entries as every busiest node
//! needs, another way than the proved code's.

use crate::limits::LAST_DAY;
use crate::plan::Plan;
use crate::roster::{narrow, Pair, Roster, Side, SIDES};

/// A sheet as the request has it: it spreads the plan over days 1 to 9, on as many
/// as the busiest node has entries.
pub fn is_sheet(pairs: &[Pair], days: &[u8]) -> bool {
    spreads(pairs, days)
        && days.iter().all(|day| (1..=LAST_DAY).contains(day))
        && days_used(days) == busiest(pairs)
}

/// One day for each entry, and no surveyor and no stand twice on a day.
pub fn spreads(pairs: &[Pair], days: &[u8]) -> bool {
    let apart = |one: usize, other: usize| {
        days[one] != days[other] || SIDES.iter().all(|&side| !meet(pairs, side, one, other))
    };
    days.len() == pairs.len() && (0..pairs.len()).all(|one| (0..one).all(|other| apart(one, other)))
}

/// How many different days there are.
pub fn days_used(days: &[u8]) -> usize {
    let mut used = days.to_vec();
    used.sort_unstable();
    used.dedup();
    used.len()
}

/// How many entries the busiest node has.
pub fn busiest(pairs: &[Pair]) -> usize {
    let entries = |one: &Pair, side| {
        let here = pairs.iter().filter(|pair| pair.end(side) == one.end(side));
        here.count()
    };
    let counts = pairs
        .iter()
        .flat_map(|one| SIDES.map(|side| entries(one, side)));
    counts.max().unwrap_or(0)
}

/// The fewest days that any spreading uses, by trying all of them.
pub fn fewest_days(pairs: &[Pair]) -> usize {
    let enough = |&most: &usize| spreads_within(pairs, narrow(most), &mut Vec::new());
    (0..=pairs.len())
        .find(enough)
        .expect("a day for each entry is enough")
}

/// Whether the days of the first entries can be gone on with, up to this day. A day
/// beyond those used so far is as good as any other such day.
fn spreads_within(pairs: &[Pair], most: u8, days: &mut Vec<u8>) -> bool {
    let next = days.len();
    if next == pairs.len() {
        return true;
    }
    let unused = days.iter().max().map_or(1, |last| last + 1);
    for day in 1..=most.min(unused) {
        days.push(day);
        if spreads(&pairs[..=next], days) && spreads_within(pairs, most, days) {
            return true;
        }
        days.pop();
    }
    false
}

fn meet(pairs: &[Pair], side: Side, one: usize, other: usize) -> bool {
    pairs[one].end(side) == pairs[other].end(side)
}

/// A day for each entry of a plan, from 1 on.
pub fn spread(roster: &Roster, plan: &Plan) -> Vec<u8> {
    let pairs: Vec<Pair> = plan.pairs(roster).collect();
    let mut even = Even::new(&pairs);
    let mut days = vec![0; pairs.len()];
    for day in 1..=narrow(even.degree) {
        for edge in even.take_matching() {
            // those beyond the plan's entries were added
            if let Some(place) = days.get_mut(edge) {
                *place = day;
            }
        }
    }
    days
}

/// A plan's entries as edges between as many nodes on either side, and added edges
/// that give every node as many as the busiest has. By Hall's theorem such edges
/// hold a matching of all nodes, and what is left of them without it is even too.
struct Even {
    nodes: usize,
    degree: usize,
    /// Both ends of each edge, counted from 0.
    edges: Vec<[usize; 2]>,
    /// Whether an edge is in no matching yet.
    left: Vec<bool>,
}

impl Even {
    fn new(pairs: &[Pair]) -> Even {
        let degree = busiest(pairs);
        let ends = |pair: &Pair| SIDES.map(|side| usize::from(pair.end(side)) - 1);
        let mut edges: Vec<[usize; 2]> = pairs.iter().map(ends).collect();
        let nodes = edges.iter().flatten().max().map_or(0, |last| last + 1);
        while let Some(added) = lacking(&edges, nodes, degree) {
            edges.push(added);
        }
        let left = vec![true; edges.len()];
        Even {
            nodes,
            degree,
            edges,
            left,
        }
    }

    /// A matching of all nodes among the edges left, which are left no more.
    fn take_matching(&mut self) -> Vec<usize> {
        let mut matched = vec![None; self.nodes];
        for surveyor in 0..self.nodes {
            let grown = self.match_with(surveyor, &mut vec![false; self.nodes], &mut matched);
            assert!(grown, "even edges hold a matching of all nodes");
        }
        let matching: Vec<usize> = matched.into_iter().flatten().collect();
        for &edge in &matching {
            self.left[edge] = false;
        }
        matching
    }

    /// Gives a surveyor a stand, moving others on where that is needed. A stand is
    /// asked once.
    fn match_with(
        &self,
        surveyor: usize,
        asked: &mut [bool],
        matched: &mut [Option<usize>],
    ) -> bool {
        for (edge, &[own, stand]) in self.edges.iter().enumerate() {
            if own != surveyor || !self.left[edge] || asked[stand] {
                continue;
            }
            asked[stand] = true;
            let free = match matched[stand] {
                None => true,
                Some(other) => self.match_with(self.edges[other][0], asked, matched),
            };
            if free {
                matched[stand] = Some(edge);
                return true;
            }
        }
        false
    }
}

/// A node of either side that has fewer edges than the degree; both sides lack
/// equally many.
fn lacking(edges: &[[usize; 2]], nodes: usize, degree: usize) -> Option<[usize; 2]> {
    let lacks = |side: usize| {
        let count = |node| edges.iter().filter(|edge| edge[side] == node).count();
        (0..nodes).find(|&node| count(node) < degree)
    };
    Some([lacks(0)?, lacks(1)?])
}
