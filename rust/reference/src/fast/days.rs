//! A plan spread over days for speed: for each node and day the entry that is
//! there, for each node a mask of its free days, of as many as the busiest node has
//! entries. An entry takes a day that is free at both ends if there is one. If not,
//! it takes the first one free at its surveyor, and the entries of its stand change
//! days along a chain.

use super::plan::Chosen;
use super::roster::Instance;
use crate::limits::{MAX_NODES, MAX_PLAN_PAIRS, MAX_QUOTA};

/// No node has more entries, so no more days are needed.
const DAYS: usize = MAX_QUOTA as usize;

/// What the nodes of one side have: the entry of each day, where that day is not
/// free, and the free days.
struct Nodes {
    entry: [[u8; DAYS]; MAX_NODES],
    free: [u16; MAX_NODES],
}

impl Nodes {
    /// Nodes that have all of so many days free.
    fn new(days: u8) -> Nodes {
        Nodes {
            entry: [[0; DAYS]; MAX_NODES],
            free: [(1 << days) - 1; MAX_NODES],
        }
    }

    fn is_free(&self, node: usize, day: usize) -> bool {
        self.free[node] >> day & 1 == 1
    }

    fn put(&mut self, node: usize, day: usize, entry: usize) {
        self.entry[node][day] = entry as u8;
        self.free[node] &= !(1 << day);
    }

    /// Puts an entry in the place of the one that is there, if one is.
    fn replace(&mut self, node: usize, day: usize, entry: usize) -> Option<usize> {
        let there = (!self.is_free(node, day)).then(|| usize::from(self.entry[node][day]));
        self.put(node, day, entry);
        there
    }

    fn leave(&mut self, node: usize, day: usize) {
        self.free[node] |= 1 << day;
    }
}

/// Writes a day, from 1, for each entry of a plan, and gives their number.
pub fn spread(instance: &Instance, chosen: &Chosen, out: &mut [u8]) -> usize {
    let mut ends = [[0; MAX_PLAN_PAIRS]; 2];
    let mut counts = [[0; MAX_NODES]; 2];
    let mut busiest = 0;
    for (place, &pair) in chosen.as_slice().iter().enumerate() {
        let pair = usize::from(pair);
        for (side, end) in [instance.surveyor[pair], instance.stand[pair]]
            .into_iter()
            .enumerate()
        {
            ends[side][place] = end;
            counts[side][usize::from(end)] += 1;
            busiest = busiest.max(counts[side][usize::from(end)]);
        }
    }
    let mut nodes = [Nodes::new(busiest), Nodes::new(busiest)];
    let mut days = [0u8; MAX_PLAN_PAIRS];
    for entry in 0..chosen.count {
        let [surveyor, stand] = [0, 1].map(|side| usize::from(ends[side][entry]));
        let [at_surveyor, at_stand] = [nodes[0].free[surveyor], nodes[1].free[stand]];
        let both = at_surveyor & at_stand;
        let free = if both != 0 { both } else { at_surveyor };
        let day = free.trailing_zeros() as usize;
        days[entry] = day as u8;
        nodes[0].put(surveyor, day, entry);
        if both != 0 {
            nodes[1].put(stand, day, entry);
        } else {
            let other = at_stand.trailing_zeros() as usize;
            mend(&ends, &mut nodes, &mut days, entry, [day, other]);
        }
    }
    for (byte, day) in out.iter_mut().zip(&days[..chosen.count]) {
        *byte = day + 1;
    }
    chosen.count
}

/// An entry has come to its stand on the first of two days; the one that was there
/// goes to the second, and so on, at stands and at surveyors in turn.
fn mend(
    ends: &[[u8; MAX_PLAN_PAIRS]; 2],
    nodes: &mut [Nodes; 2],
    days: &mut [u8; MAX_PLAN_PAIRS],
    mut entry: usize,
    [mut to, mut other]: [usize; 2],
) {
    let mut side = 1;
    let mut first = true;
    loop {
        let node = usize::from(ends[side][entry]);
        let there = nodes[side].replace(node, to, entry);
        let Some(moved) = there else {
            // the entry has left its old day here, unless it is the new one
            if !first {
                nodes[side].leave(node, other);
            }
            return;
        };
        first = false;
        nodes[side].put(node, other, moved);
        days[moved] = other as u8;
        entry = moved;
        side = 1 - side;
        (to, other) = (other, to);
    }
}
