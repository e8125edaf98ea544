//! Walks between a plan's pairs, and how repeats are cut out of them. Pairs of
//! the plan are given by their places in it, free pairs by their numbers.

use super::plan::Chosen;
use super::roster::Instance;
use super::verdict::rank_vote;

/// The pairs that go and the pairs that come.
pub type Exchange = (Vec<usize>, Vec<u16>);

/// A walk with its two ends: a free pair leads to each stop and one leads away
/// from the last; at the two ends none stands for a loss.
pub struct Walk {
    pub stops: Vec<usize>,
    pub frees: Vec<Option<u16>>,
}

impl Walk {
    /// The exchange of the walk after all closed parts were cut out. They cost
    /// nothing or more, so what stays costs no more than the whole.
    pub fn without_repeats(mut self) -> Exchange {
        while let Some((first, second)) = repeat(&self.stops, |a, b| a == b) {
            self.stops.drain(first + 1..=second);
            self.frees.drain(first + 1..=second);
        }
        // a free pair that comes again leads to its later stop at once; losses
        // at both ends are no repeat
        while let Some((first, second)) = repeat(&self.frees, |a, b| a.is_some() && a == b) {
            self.stops.drain(first..second);
            self.frees.drain(first..second);
        }
        (self.stops, self.frees.into_iter().flatten().collect())
    }
}

/// The first item that comes again, by the places of both.
fn repeat<T>(items: &[T], same: impl Fn(&T, &T) -> bool) -> Option<(usize, usize)> {
    (0..items.len()).find_map(|first| {
        let again = (first + 1..items.len()).find(|&place| same(&items[first], &items[place]));
        again.map(|second| (first, second))
    })
}

/// A closed walk: each stop with the free pair that leads to it, the first from
/// the last stop.
pub struct Closed {
    stops: Vec<usize>,
    frees: Vec<u16>,
}

impl Closed {
    pub fn new(stops: &[usize], frees: &[Option<u16>]) -> Closed {
        Closed {
            stops: stops.to_vec(),
            frees: frees.iter().copied().flatten().collect(),
        }
    }

    fn cost(&self, instance: &Instance, plan: &Chosen) -> i16 {
        let pair = |stop: usize| usize::from(plan.pairs[stop]);
        let count = self.stops.len();
        (0..count)
            .map(|place| {
                let free = usize::from(self.frees[place]);
                let from = pair(self.stops[(place + count - 1) % count]);
                let to = pair(self.stops[place]);
                rank_vote(instance.rank_t[from], instance.rank_t[free])
                    + rank_vote(instance.rank_s[to], instance.rank_s[free])
            })
            .sum()
    }

    /// The exchange of a closed part without repeats that costs nothing, or
    /// less than nothing if the whole does. At a repeat the walk falls into two
    /// closed ones whose costs add up.
    pub fn without_repeats(mut self, instance: &Instance, plan: &Chosen, cost: i16) -> Exchange {
        let limit = if cost < 0 { -1 } else { 0 };
        loop {
            let part = if let Some((first, second)) = repeat(&self.stops, |a, b| a == b) {
                first + 1..second + 1
            } else if let Some((first, second)) = repeat(&self.frees, |a, b| a == b) {
                first..second
            } else {
                return (self.stops, self.frees);
            };
            let inner = Closed {
                stops: self.stops.drain(part.clone()).collect(),
                frees: self.frees.drain(part).collect(),
            };
            if inner.cost(instance, plan) <= limit {
                self = inner;
            }
        }
    }
}
