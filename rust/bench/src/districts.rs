//! Two districts joined: 16 surveyors and 16 stands each with full lists, so that the
//! joined roster is the longest.

use std::hint::black_box;

use planner::ROSTER_BYTES;
use reference::fast;
use reference::random::{self, Random, Shape};
use reference::roster;

use crate::measure::Effort;
use crate::table::Table;

pub fn rows(effort: Effort, table: &mut Table) {
    let mut random = Random::new(13);
    let [first, second] = [(); 2].map(|()| {
        let shape = Shape {
            counts: [16..=16, 16..=16],
            ..random::longest_shape(50, 20)
        };
        roster::write(&random::roster(&mut random, &shape))
    });
    let (mut out, mut other) = ([0; ROSTER_BYTES], [0; ROSTER_BYTES]);
    let times = effort.both(
        200,
        || {
            let length = planner::join_districts(black_box(&first), black_box(&second), &mut out);
            assert_eq!(black_box(length), Ok(ROSTER_BYTES));
        },
        || {
            let length = fast::districts::join(black_box(&first), black_box(&second), &mut other);
            assert_eq!(black_box(length), Ok(ROSTER_BYTES));
        },
    );
    assert_eq!(out, other);
    table.put(
        "join two districts to the longest roster (4,262 bytes)",
        times,
    );
}
