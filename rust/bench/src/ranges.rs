//! The least vote of two plans over ranges of ranks: the longest roster, plans of 64
//! pairs, from a desk that holds the roster to the vote and the ranks written, the
//! reference from the bytes of all four.

use std::hint::black_box;

use planner::RANK_BYTES;
use reference::fast;
use reference::limits::{MAX_PLAN_PAIRS, MAX_RANK};
use reference::plan;
use reference::random::{self, Random};
use reference::ranges::{self, Range};
use reference::roster::{self, Roster};

use crate::lent::loaded;
use crate::measure::Effort;
use crate::table::Table;

pub fn table(effort: Effort) -> Table {
    let mut table = Table::new("ranges");
    let mut random = Random::new(31);
    for (ties, name) in [(0, "no ties"), (50, "half the stands with ties")] {
        let roster = random::roster(&mut random, &random::longest_shape(ties, 20));
        row(effort, &mut table, &mut random, &roster, name);
    }
    table
}

/// Ranges anywhere, as a file.
fn ranges_file(random: &mut Random, roster: &Roster) -> Vec<u8> {
    let any = |_| {
        let low = random.within(&(1..=MAX_RANK));
        let high = random.within(&(low..=MAX_RANK));
        Range { low, high }
    };
    let ranges: Vec<Range> = ranges::entries(roster).iter().map(any).collect();
    ranges::write(&ranges)
}

fn row(effort: Effort, table: &mut Table, random: &mut Random, roster: &Roster, name: &str) {
    let file = roster::write(roster);
    let [first, second] = [(); 2].map(|()| {
        let plan = random::plan_of(random, roster, MAX_PLAN_PAIRS);
        plan::write(roster, &plan)
    });
    let ranges = ranges_file(random, roster);
    let desk = loaded(&file);
    let (mut ranks, mut other) = ([0; RANK_BYTES], [0; RANK_BYTES]);
    let (mut ours, mut theirs) = (0, 0);
    let times = effort.both(
        200,
        || {
            let least = black_box(&desk).least(&first, &second, black_box(&ranges), &mut ranks);
            ours = black_box(least).expect("accepted").vote;
        },
        || {
            let instance = fast::roster::read(black_box(&file)).expect("accepted");
            let [mine, against] = [&first, &second]
                .map(|plan| fast::plan::read(&instance, black_box(plan)).expect("accepted"));
            assert_eq!(fast::ranges::check(&instance, black_box(&ranges)), 0);
            theirs = fast::ranges::least(&instance, &mine, &against, &ranges, &mut other);
        },
    );
    assert_eq!(ours, theirs);
    table.put(format!("least vote over 2,048 ranges, {name}"), times);
}
