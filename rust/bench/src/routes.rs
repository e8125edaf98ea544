//! The longest roster stored in walking order, by a random route over its 32 stands,
//! and taken back.

use std::hint::black_box;

use planner::STORED_BYTES;
use reference::fast;
use reference::random::{self, Random};
use reference::routes;

use crate::measure::Effort;
use crate::table::Table;

pub fn rows(effort: Effort, table: &mut Table) {
    let mut random = Random::new(14);
    let roster = random::roster(&mut random, &random::longest_shape(50, 20));
    let route = random::route(&mut random, 32);
    let file = routes::write(&route, &roster);
    let (mut stored, mut other) = (vec![0; STORED_BYTES], vec![0; STORED_BYTES]);
    let times = effort.both(
        200,
        || {
            let length = planner::store(black_box(&file), &mut stored);
            assert_eq!(black_box(length), Ok(STORED_BYTES));
        },
        || {
            let length = fast::routes::store(black_box(&file), &mut other);
            assert_eq!(black_box(length), Ok(STORED_BYTES));
        },
    );
    assert_eq!(stored, other);
    table.put(
        "store the longest roster in walking order (4,295 bytes)",
        times,
    );
    let mut back = vec![0; STORED_BYTES];
    let times = effort.both(
        200,
        || {
            let length = planner::unstore(black_box(&stored), &mut back);
            assert_eq!(black_box(length), Ok(STORED_BYTES));
        },
        || {
            let length = fast::routes::unstore(black_box(&stored), &mut other);
            assert_eq!(black_box(length), Ok(STORED_BYTES));
        },
    );
    assert_eq!((&back, &other), (&file, &file));
    table.put("take it back", times);
}
