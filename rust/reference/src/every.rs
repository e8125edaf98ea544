//! All rosters of a given size, and all routes, for counting by brute force.

use std::ops::RangeInclusive;

use crate::roster::{Entry, List, Node, Roster};

/// A size whose rosters can all be tried.
pub struct Size {
    /// How many nodes, for each side.
    pub counts: [u8; 2],
    /// In how many shifts, from 1 on, a surveyor and a stand may be a pair.
    pub shifts: u8,
    /// The quotas of the nodes, for each side.
    pub quotas: [RangeInclusive<u8>; 2],
    /// The number of the rosters: over all sets of pairs, the lists they allow,
    /// times the quotas.
    pub rosters: u64,
}

const fn size(
    counts: [u8; 2],
    shifts: u8,
    quotas: [RangeInclusive<u8>; 2],
    lists: u64,
    with_quotas: u64,
) -> Size {
    Size {
        counts,
        shifts,
        quotas,
        rosters: lists * with_quotas,
    }
}

/// Small sizes: first with one shift, then with several, where one surveyor and
/// one stand may be up to three pairs.
pub const SMALL: [Size; 11] = [
    size([1, 1], 1, [0..=2, 0..=2], 3, 9),
    size([2, 2], 1, [0..=3, 0..=3], 223, 256),
    size([1, 3], 1, [0..=4, 0..=2], 79, 5 * 27),
    size([3, 1], 1, [0..=2, 0..=4], 38, 27 * 5),
    size([2, 3], 1, [1..=2, 1..=2], 10_132, 32),
    size([3, 2], 1, [1..=2, 1..=3], 5_375, 72),
    size([1, 1], 3, [0..=3, 0..=3], 133, 16),
    size([2, 1], 2, [0..=2, 0..=4], 437, 9 * 5),
    size([1, 2], 2, [0..=4, 0..=2], 901, 5 * 9),
    size([2, 1], 3, [1..=2, 2..=2], 99_490, 4),
    size([1, 2], 3, [2..=2, 2..=2], 253_345, 1),
];

/// Sizes so small that every roster of them can be tried beside every other.
pub const FOR_PAIRS: [Size; 6] = [
    size([0, 1], 1, [0..=0, 1..=1], 1, 1),
    size([1, 1], 1, [0..=2, 0..=2], 3, 9),
    size([2, 1], 1, [1..=1, 1..=2], 10, 2),
    size([1, 2], 1, [1..=2, 1..=1], 13, 2),
    size([1, 1], 2, [1..=2, 1..=2], 15, 4),
    size([2, 2], 1, [1..=1, 1..=1], 223, 1),
];

/// Sizes so small that every roster of them can be tried along every route.
pub const FOR_ROUTES: [Size; 4] = [
    size([1, 3], 1, [0..=4, 0..=2], 79, 5 * 27),
    size([2, 2], 1, [1..=2, 1..=2], 223, 16),
    size([1, 2], 2, [1..=2, 1..=2], 901, 8),
    size([2, 3], 1, [1..=1, 1..=1], 10_132, 1),
];

/// All routes over so many stands.
pub fn routes(stands: u8) -> Vec<Vec<u8>> {
    if stands == 0 {
        return vec![Vec::new()];
    }
    let with_last = |route: Vec<u8>| {
        (0..=route.len()).map(move |place| {
            let mut route = route.clone();
            route.insert(place, stands);
            route
        })
    };
    routes(stands - 1).into_iter().flat_map(with_last).collect()
}

/// All orders of all subsets of the entries.
fn ordered_subsets(entries: &[Entry]) -> Vec<Vec<Entry>> {
    let mut all = vec![Vec::new()];
    for &first in entries {
        let others: Vec<Entry> = entries.iter().copied().filter(|&e| e != first).collect();
        for rest in ordered_subsets(&others) {
            all.push(std::iter::once(first).chain(rest).collect());
        }
    }
    all
}

/// All ways to choose one item from each of the sets of choices.
fn product<T: Clone>(choices: &[Vec<T>]) -> Vec<Vec<T>> {
    let Some((last, front)) = choices.split_last() else {
        return vec![Vec::new()];
    };
    let mut all = Vec::new();
    for chosen in product(front) {
        for item in last {
            all.push(chosen.iter().chain([item]).cloned().collect());
        }
    }
    all
}

/// All lists of a stand with these entries: any of them in any order strictly,
/// and the rest tied.
fn stand_lists(entries: &[Entry]) -> Vec<List> {
    let list = |strict: Vec<Entry>| {
        let tied = entries.iter().copied().filter(|e| !strict.contains(e));
        let tied = tied.collect();
        List { strict, tied }
    };
    ordered_subsets(entries).into_iter().map(list).collect()
}

/// The surveyors whose lists hold the stand, in each of its shifts, ascending.
fn fans(surveyor_lists: &[List], stand: u8) -> Vec<Entry> {
    let mut fans = Vec::new();
    for (number, list) in (1..).zip(surveyor_lists) {
        let here = list.entries().filter(|entry| entry.number == stand);
        fans.extend(here.map(|Entry { shift, .. }| Entry { number, shift }));
    }
    fans.sort_unstable();
    fans
}

/// Calls `visit` with every roster of this size.
pub fn for_each_roster(size: &Size, mut visit: impl FnMut(&Roster)) {
    let [surveyors, stands] = size.counts;
    let in_shifts = |number| (1..=size.shifts).map(move |shift| Entry { number, shift });
    let entries: Vec<Entry> = (1..=stands).flat_map(in_shifts).collect();
    let lists: Vec<List> = ordered_subsets(&entries).into_iter().map(strict).collect();
    let [surveyor_quotas, stand_quotas] = size.quotas.clone().map(Iterator::collect);
    let mut quotas = vec![surveyor_quotas; usize::from(surveyors)];
    quotas.resize(usize::from(surveyors + stands), stand_quotas);
    let quotas: Vec<Vec<u8>> = product(&quotas);
    for surveyor_lists in product(&vec![lists; usize::from(surveyors)]) {
        let choices: Vec<Vec<List>> = (1..=stands)
            .map(|stand| stand_lists(&fans(&surveyor_lists, stand)))
            .collect();
        for stand_lists in product(&choices) {
            for quotas in &quotas {
                visit(&with_quotas(quotas, &surveyor_lists, &stand_lists));
            }
        }
    }
}

/// A list without a tie.
fn strict(strict: Vec<Entry>) -> List {
    let tied = Vec::new();
    List { strict, tied }
}

fn with_quotas(quotas: &[u8], surveyor_lists: &[List], stand_lists: &[List]) -> Roster {
    let (surveyors, stands) = quotas.split_at(surveyor_lists.len());
    let nodes = |quotas: &[u8], lists: &[List]| {
        let nodes = quotas.iter().zip(lists.iter().cloned());
        nodes.map(|(&quota, list)| Node { quota, list }).collect()
    };
    let (surveyors, stands) = (nodes(surveyors, surveyor_lists), nodes(stands, stand_lists));
    Roster::new(surveyors, stands).expect("both sides list the same pairs")
}
