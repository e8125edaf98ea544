//! Old season files: the longest old roster and an old plan of it, turned into
//! new files and back.

use std::hint::black_box;

use planner::{PLAN_BYTES, ROSTER_BYTES};
use reference::fast;
use reference::layout::Layout;
use reference::plan;
use reference::random::{self, Random};
use reference::roster;

use crate::lent::loaded;
use crate::measure::Effort;
use crate::table::Table;

/// The two files of a roster or a plan.
struct Files {
    old: Vec<u8>,
    new: Vec<u8>,
}

pub fn rows(effort: Effort, table: &mut Table) {
    let mut random = Random::new(12);
    let roster = random::roster(&mut random, &random::longest_old_shape(50, 20));
    let plan = random::plan_of(&mut random, &roster, 64);
    let files = Files {
        old: roster::write_by(Layout::Old, &roster),
        new: roster::write(&roster),
    };
    let plans = Files {
        old: plan::write_by(Layout::Old, &roster, &plan),
        new: plan::write(&roster, &plan),
    };
    rosters(effort, table, &files);
    of_the_roster(effort, table, &files.new, &plans);
}

fn rosters(effort: Effort, table: &mut Table, files: &Files) {
    let (mut out, mut other) = (vec![0; ROSTER_BYTES], vec![0; ROSTER_BYTES]);
    table.put(
        "turn the longest old roster (2,214 bytes) into a new one",
        effort.both(
            200,
            || {
                let length = planner::roster_to_new(black_box(&files.old), &mut out);
                assert_eq!(black_box(length), Ok(files.new.len()));
            },
            || {
                let length = fast::seasons::roster_to_new(black_box(&files.old), &mut other);
                assert_eq!(black_box(length), Ok(files.new.len()));
            },
        ),
    );
    assert_eq!((&out, &other), (&files.new, &files.new));
    table.put(
        "turn it back",
        effort.both(
            200,
            || {
                let length = planner::roster_to_old(black_box(&files.new), &mut out);
                assert_eq!(black_box(length), Ok(files.old.len()));
            },
            || {
                let length = fast::seasons::roster_to_old(black_box(&files.new), &mut other);
                assert_eq!(black_box(length), Ok(files.old.len()));
            },
        ),
    );
    assert_eq!(out[..files.old.len()], files.old);
}

/// A plan is judged against the held roster, which each call reads from its
/// bytes.
fn of_the_roster(effort: Effort, table: &mut Table, file: &[u8], plans: &Files) {
    let desk = loaded(file);
    let (mut out, mut other) = ([0; PLAN_BYTES], [0; PLAN_BYTES]);
    let instance = || fast::roster::read(black_box(file)).expect("accepted");
    table.put(
        "turn an old 64-pair plan of it into a new one",
        effort.both(
            200,
            || {
                let length = black_box(&desk).plan_to_new(black_box(&plans.old), &mut out);
                assert_eq!(black_box(length), Ok(plans.new.len()));
            },
            || {
                let old = black_box(&plans.old);
                let length = fast::seasons::plan_to_new(&instance(), old, &mut other);
                assert_eq!(black_box(length), Ok(plans.new.len()));
            },
        ),
    );
    table.put(
        "turn it back",
        effort.both(
            200,
            || {
                let length = black_box(&desk).plan_to_old(black_box(&plans.new), &mut out);
                assert_eq!(black_box(length), Ok(plans.old.len()));
            },
            || {
                let new = black_box(&plans.new);
                let length = fast::seasons::plan_to_old(&instance(), new, &mut other);
                assert_eq!(black_box(length), Ok(plans.old.len()));
            },
        ),
    );
}
