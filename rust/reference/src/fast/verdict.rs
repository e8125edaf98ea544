//! The verdict for speed: least costs of walks between the plan's pairs by the
//! usual table of all shortest ways, then closed walks, walks with their two
//! ends, and single free pairs. What was found is read back as a rival.

use super::plan::Chosen;
use super::roster::Instance;
use super::vote::vote;
use super::walk::{Closed, Walk};
use crate::limits::{MAX_ENTRIES, MAX_NODES, MAX_PLAN_PAIRS, MAX_QUOTA};

/// As far as no walk goes.
pub(super) const FAR: i16 = 10_000;
/// Above every cost of a walk.
const OUT_OF_REACH: i16 = FAR / 2;
const N: usize = MAX_PLAN_PAIRS;
const PLACES: usize = MAX_QUOTA as usize;

/// A plan that ties with or beats another, and the other's vote against it.
#[derive(Clone, Copy, Debug)]
pub struct Rival {
    pub plan: Chosen,
    pub vote: i16,
}

/// What the votes against all other plans make of a plan.
#[derive(Clone, Copy, Debug)]
pub enum Verdict {
    Strong,
    Popular(Rival),
    Beaten(Rival),
}

/// The vote of one rank against another.
pub(super) fn rank_vote(own: u8, other: u8) -> i16 {
    i16::from(own < other) - i16::from(own > other)
}

/// The verdict on a plan.
pub fn judge(instance: &Instance, plan: &Chosen) -> Verdict {
    let mut tables = match Tables::new(instance, plan) {
        Ok(tables) => tables,
        Err(free) => return rivalled(instance, plan, exchange(plan, &[], &[free])),
    };
    let Some(found) = tables.search() else {
        return Verdict::Strong;
    };
    let (out, into) = match found {
        Found::Closed { at, cost } => {
            let (stops, frees) = tables.way(at, at, cost, 1);
            let walk = Closed::new(&stops[1..], &frees);
            walk.without_repeats(instance, plan, cost)
        }
        Found::Whole {
            from,
            to,
            cost,
            start,
            stop,
        } => {
            let (stops, mut frees) = tables.way(from, to, cost, 0);
            frees.insert(0, start);
            frees.push(stop);
            Walk { stops, frees }.without_repeats()
        }
    };
    rivalled(instance, plan, exchange(plan, &out, &into))
}

/// The verdict that a rival shows, by its vote.
fn rivalled(instance: &Instance, plan: &Chosen, rival: Chosen) -> Verdict {
    let vote = vote(instance, plan, &rival);
    let rival = Rival { plan: rival, vote };
    assert!(vote <= 0, "what is found ties or beats");
    if vote < 0 {
        Verdict::Beaten(rival)
    } else {
        Verdict::Popular(rival)
    }
}

/// The plan without some of its pairs, given by their places in it, and with
/// some free ones.
fn exchange(plan: &Chosen, out: &[usize], into: &[u16]) -> Chosen {
    let kept = plan.as_slice().iter().enumerate();
    let kept = kept.filter(|(place, _)| !out.contains(place));
    let mut pairs: Vec<u16> = kept
        .map(|(_, &pair)| pair)
        .chain(into.iter().copied())
        .collect();
    pairs.sort_unstable();
    let mut rival = Chosen {
        count: pairs.len(),
        pairs: [0; MAX_PLAN_PAIRS],
    };
    rival.pairs[..pairs.len()].copy_from_slice(&pairs);
    rival
}

/// What a search ended with: a closed walk through a pair, or a walk with its
/// two ends, a loss (no free pair) or a gain by a free pair.
enum Found {
    Closed {
        at: usize,
        cost: i16,
    },
    Whole {
        from: usize,
        to: usize,
        cost: i16,
        start: Option<u16>,
        stop: Option<u16>,
    },
}

/// A gain by a free pair: its cost, the pair and the node that gains.
#[derive(Clone, Copy)]
struct Gain {
    cost: i16,
    free: u16,
    node: u8,
}

const NO_GAIN: Gain = Gain {
    cost: FAR,
    free: 0,
    node: u8::MAX,
};

/// The cheapest gain at a pair, and the cheapest at another node than that.
#[derive(Clone, Copy)]
struct Gains([Gain; 2]);

impl Gains {
    fn put(&mut self, gain: Gain) {
        let [first, second] = &mut self.0;
        if gain.cost < first.cost {
            if first.node != gain.node {
                *second = *first;
            }
            *first = gain;
        } else if gain.node != first.node && gain.cost < second.cost {
            *second = gain;
        }
    }

    /// The cheapest gain that is not at this node.
    fn apart(&self, node: u8) -> Gain {
        let [first, second] = self.0;
        if first.node == node {
            second
        } else {
            first
        }
    }
}

/// The plan's pairs at each node of a side, by their places in the plan.
struct At {
    count: [u8; MAX_NODES],
    places: [[u8; PLACES]; MAX_NODES],
}

impl At {
    fn new(plan: &Chosen, ends: &[u8; MAX_ENTRIES]) -> At {
        let mut at = At {
            count: [0; MAX_NODES],
            places: [[0; PLACES]; MAX_NODES],
        };
        for (place, &pair) in plan.as_slice().iter().enumerate() {
            let node = usize::from(ends[usize::from(pair)]);
            at.places[node][usize::from(at.count[node])] = place as u8;
            at.count[node] += 1;
        }
        at
    }

    fn of(&self, node: usize) -> &[u8] {
        &self.places[node][..usize::from(self.count[node])]
    }
}

struct Tables {
    count: usize,
    surveyor: [u8; N],
    stand: [u8; N],
    /// The cheapest arc from one pair of the plan to another, and the free pair
    /// that it goes by.
    arc: [[i16; N]; N],
    by: [[u16; N]; N],
    /// The cheapest walk of at least one arc.
    walk: [[i16; N]; N],
    starts: [Gains; N],
    stops: [Gains; N],
}

impl Tables {
    /// The tables, or a free pair with room at both ends.
    fn new(instance: &Instance, plan: &Chosen) -> Result<Tables, u16> {
        let mut tables = Tables {
            count: plan.count,
            surveyor: [0; N],
            stand: [0; N],
            arc: [[FAR; N]; N],
            by: [[0; N]; N],
            walk: [[FAR; N]; N],
            starts: [Gains([NO_GAIN; 2]); N],
            stops: [Gains([NO_GAIN; 2]); N],
        };
        let mut chosen = [false; MAX_ENTRIES];
        for (place, &pair) in plan.as_slice().iter().enumerate() {
            chosen[usize::from(pair)] = true;
            tables.surveyor[place] = instance.surveyor[usize::from(pair)];
            tables.stand[place] = instance.stand[usize::from(pair)];
        }
        let at_surveyor = At::new(plan, &instance.surveyor);
        let at_stand = At::new(plan, &instance.stand);
        for free in (0..instance.pairs).filter(|&pair| !chosen[pair]) {
            let s = usize::from(instance.surveyor[free]);
            let t = usize::from(instance.stand[free]);
            let room_s = at_surveyor.count[s] < instance.quota_s[s];
            let room_t = at_stand.count[t] < instance.quota_t[t];
            if room_s && room_t {
                return Err(free as u16);
            }
            let pair = |place: u8| usize::from(plan.pairs[usize::from(place)]);
            let vote_s = |&y: &u8| rank_vote(instance.rank_s[pair(y)], instance.rank_s[free]);
            let vote_t = |&x: &u8| rank_vote(instance.rank_t[pair(x)], instance.rank_t[free]);
            tables.lead(free, at_stand.of(t), at_surveyor.of(s), vote_t, vote_s);
            if room_t {
                for y in at_surveyor.of(s) {
                    let gain = Gain {
                        cost: vote_s(y) - 1,
                        free: free as u16,
                        node: t as u8,
                    };
                    tables.starts[usize::from(*y)].put(gain);
                }
            }
            if room_s {
                for x in at_stand.of(t) {
                    let gain = Gain {
                        cost: vote_t(x) - 1,
                        free: free as u16,
                        node: s as u8,
                    };
                    tables.stops[usize::from(*x)].put(gain);
                }
            }
        }
        tables.walk = tables.arc;
        Ok(tables)
    }

    /// The arcs by one free pair.
    fn lead(
        &mut self,
        free: usize,
        from: &[u8],
        to: &[u8],
        vote_t: impl Fn(&u8) -> i16,
        vote_s: impl Fn(&u8) -> i16,
    ) {
        for x in from {
            let at_stand = vote_t(x);
            for y in to {
                let cost = at_stand + vote_s(y);
                let (x, y) = (usize::from(*x), usize::from(*y));
                if cost < self.arc[x][y] {
                    self.arc[x][y] = cost;
                    self.by[x][y] = free as u16;
                }
            }
        }
    }

    /// A closed walk that costs less than nothing, else the cheapest of all
    /// closed walks and walks with ends, if it costs nothing or less.
    fn search(&mut self) -> Option<Found> {
        let count = self.count;
        for via in 0..count {
            let onward = self.walk[via];
            for row in &mut self.walk[..count] {
                let first = row[via];
                if first < OUT_OF_REACH {
                    for (known, next) in row.iter_mut().zip(onward) {
                        *known = (first + next).min(*known);
                    }
                }
            }
            if let Some(at) = (0..count).find(|&x| self.walk[x][x] < 0) {
                return Some(Found::Closed {
                    at,
                    cost: self.walk[at][at],
                });
            }
        }
        let mut best = None;
        let mut least = 1;
        for x in 0..count {
            if self.walk[x][x] < least {
                least = self.walk[x][x];
                best = Some(Found::Closed { at: x, cost: least });
            }
            for y in 0..count {
                let between = self.between(x, y);
                if between > OUT_OF_REACH {
                    continue;
                }
                let (ends, start, stop) = self.ends(x, y);
                if between + ends < least {
                    least = between + ends;
                    best = Some(Found::Whole {
                        from: x,
                        to: y,
                        cost: between,
                        start,
                        stop,
                    });
                }
            }
        }
        best
    }

    /// The cost of the cheapest walk, of no arcs too.
    fn between(&self, x: usize, y: usize) -> i16 {
        let least = if x == y { 0 } else { FAR };
        self.walk[x][y].min(least)
    }

    /// The cheapest start at one pair and end at another. A gain and a loss at
    /// one node are no exchange.
    fn ends(&self, x: usize, y: usize) -> (i16, Option<u16>, Option<u16>) {
        let [gain_in, _] = self.starts[x].0;
        let [gain_out, _] = self.stops[y].0;
        let out_apart = self.stops[y].apart(self.surveyor[x]);
        let in_apart = self.starts[x].apart(self.stand[y]);
        let ways = [
            (2, None, None),
            (1 + out_apart.cost, None, Some(out_apart.free)),
            (in_apart.cost + 1, Some(in_apart.free), None),
            (
                gain_in.cost + gain_out.cost,
                Some(gain_in.free),
                Some(gain_out.free),
            ),
        ];
        ways.into_iter()
            .min_by_key(|&(cost, ..)| cost)
            .expect("four ways")
    }

    /// A walk of at least `least` arcs from one pair to another that costs no
    /// more than `cost`, by levels: its stops, and the free pairs between them.
    fn way(
        &self,
        from: usize,
        to: usize,
        cost: i16,
        least: usize,
    ) -> (Vec<usize>, Vec<Option<u16>>) {
        let mut costs = [FAR; N];
        costs[from] = 0;
        let mut parents: Vec<[u8; N]> = Vec::new();
        while parents.len() < least || costs[to] > cost {
            assert!(parents.len() <= 2 * N, "a walk of that cost exists");
            let mut next = [FAR; N];
            let mut parent = [0; N];
            for (x, &known) in costs[..self.count].iter().enumerate() {
                if known > OUT_OF_REACH {
                    continue;
                }
                for y in 0..self.count {
                    if known + self.arc[x][y] < next[y] {
                        next[y] = known + self.arc[x][y];
                        parent[y] = x as u8;
                    }
                }
            }
            costs = next;
            parents.push(parent);
        }
        let mut stops = vec![to];
        let mut frees = Vec::new();
        for parent in parents.iter().rev() {
            let last = stops[stops.len() - 1];
            let before = usize::from(parent[last]);
            frees.push(Some(self.by[before][last]));
            stops.push(before);
        }
        stops.reverse();
        frees.reverse();
        (stops, frees)
    }
}
