//! Plain offers on the fullest training blocks: 32 surveyors and 32 stands, all
//! pairs listed.

use std::hint::black_box;

use reference::fast;
use reference::limits::MAX_NODES;
use reference::random::{self, Random, Shape};
use reference::roster;

use crate::measure::Effort;
use crate::table::Table;

pub fn table(effort: Effort) -> Table {
    let mut table = Table::new("offers");
    let mut random = Random::new(21);
    let nodes = MAX_NODES as u8;
    for (lists, opposed) in [
        ("random lists", 0),
        ("lists half opposed", 50),
        ("opposed lists", 100),
    ] {
        let shape = Shape {
            counts: [nodes..=nodes, nodes..=nodes],
            quotas: [1..=1, 1..=1],
            shifts: 1,
            pairs: 100,
            ties: 0,
            opposed,
        };
        let file = roster::write(&random::roster(&mut random, &shape));
        offers(effort, &mut table, lists, &file);
    }
    table
}

fn offers(effort: Effort, table: &mut Table, lists: &str, file: &[u8]) {
    let (mut out, mut other) = ([0; planner::PLAN_BYTES], [0; planner::PLAN_BYTES]);
    let (mut ours, mut theirs) = (false, false);
    let times = effort.both(
        200,
        || {
            let offers = planner::offers(black_box(file), &mut out).expect("of the profile");
            ours = black_box(offers).strong;
        },
        || {
            let offers = fast::offers::profile(black_box(file), &mut other);
            theirs = black_box(offers).expect("of the profile").0;
        },
    );
    assert_eq!((out, ours), (other, theirs));
    let verdict = if ours { ", strong" } else { "" };
    table.put(format!("plain offers, {lists}{verdict}"), times);
}
