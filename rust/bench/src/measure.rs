//! How calls are timed: each for some rounds, those that are held against each other in
//! turn, so that a ratio is of the same moments of an uneven machine.

use std::time::Instant;

/// How much is measured.
#[derive(Clone, Copy)]
pub struct Effort {
    /// How often the calls of a row take turns.
    turns: usize,
    /// How many rounds a turn has, of which the least counts.
    rounds: usize,
    /// Whether a round is one call, and of many inputs a few do.
    pub quick: bool,
}

impl Effort {
    pub const FULL: Effort = Effort {
        turns: 4,
        rounds: 15,
        quick: false,
    };

    /// Enough to see that everything runs and answers alike; the times say nothing.
    pub const QUICK: Effort = Effort {
        turns: 1,
        rounds: 1,
        quick: true,
    };

    /// The least time of a call over all rounds, in microseconds.
    pub fn time(self, calls: usize, mut call: impl FnMut()) -> f64 {
        self.in_turn(calls, &mut [&mut call])[0]
    }

    /// The same of two calls in turn.
    pub fn both(self, calls: usize, mut ours: impl FnMut(), mut theirs: impl FnMut()) -> Vec<f64> {
        self.in_turn(calls, &mut [&mut ours, &mut theirs])
    }

    /// The same of any number of calls in turn.
    pub fn in_turn(self, calls: usize, each: &mut [&mut dyn FnMut()]) -> Vec<f64> {
        let calls = if self.quick { 1 } else { calls };
        let mut least = vec![f64::MAX; each.len()];
        for _ in 0..self.turns {
            for (call, least) in each.iter_mut().zip(&mut least) {
                for _ in 0..self.rounds {
                    *least = least.min(round(calls, call));
                }
            }
        }
        least
    }
}

/// The time of a call in one round, in microseconds.
fn round(calls: usize, call: &mut dyn FnMut()) -> f64 {
    let start = Instant::now();
    for _ in 0..calls {
        call();
    }
    start.elapsed().as_secs_f64() * 1e6 / calls as f64
}
