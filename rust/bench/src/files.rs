//! Reading and writing rosters and plans.

use std::hint::black_box;

use planner::{Desk, PLAN_BYTES, ROSTER_BYTES};
use reference::fast;
use reference::plan;
use reference::random::{self, Random};
use reference::roster;

use crate::lent::loaded;
use crate::measure::Effort;
use crate::table::Table;

pub fn rows(effort: Effort, table: &mut Table) {
    let mut random = Random::new(7);
    let longest = random::roster(&mut random, &random::longest_shape(50, 20));
    let file = roster::write(&longest);
    assert_eq!(file.len(), ROSTER_BYTES);
    let chosen = plan::write(&longest, &random::plan_of(&mut random, &longest, 64));
    rosters(effort, table, &file);
    plans(effort, table, &file, &chosen);
    let instance = fast::roster::read(&file).expect("accepted");
    let alone = effort.time(2_000, || {
        black_box(fast::plan::read(&instance, black_box(&chosen))).expect("accepted");
    });
    table.note(format!(
        "The reference's plan reading alone, without the roster: {alone:.2} microseconds."
    ));
}

fn rosters(effort: Effort, table: &mut Table, file: &[u8]) {
    let (mut out, mut other) = ([0; ROSTER_BYTES], [0; ROSTER_BYTES]);
    let mut copied = || {
        assert_eq!(black_box(fast::roster::check(black_box(file))), 0);
        other[..file.len()].copy_from_slice(black_box(file));
    };
    table.put(
        "read the longest roster (4,262 bytes)",
        effort.both(
            200,
            || black_box(planner::read_roster(black_box(file))).expect("accepted"),
            || assert_eq!(black_box(fast::roster::check(black_box(file))), 0),
        ),
    );
    let empty = Desk::open();
    table.put(
        "load the longest roster into a desk",
        effort.both(
            200,
            || {
                let mut desk = black_box(&empty).clone();
                desk.load_roster(black_box(file)).expect("accepted");
                black_box(desk);
            },
            &mut copied,
        ),
    );
    let desk = loaded(file);
    table.put(
        "write the longest roster held",
        effort.both(
            200,
            || {
                black_box(black_box(&desk).write_roster(&mut out)).expect("a roster is held");
            },
            copied,
        ),
    );
}

fn plans(effort: Effort, table: &mut Table, file: &[u8], chosen: &[u8]) {
    let (mut out, mut other) = ([0; PLAN_BYTES], [0; PLAN_BYTES]);
    let read = || {
        let instance = fast::roster::read(black_box(file)).expect("accepted");
        let plan = fast::plan::read(&instance, black_box(chosen)).expect("accepted");
        (instance, plan)
    };
    let mut desk = loaded(file);
    table.put(
        "load a 64-pair plan of it",
        effort.both(
            200,
            || {
                let mut desk = black_box(&desk).clone();
                desk.load_plan(black_box(chosen)).expect("accepted");
                black_box(desk);
            },
            || {
                black_box(read());
            },
        ),
    );
    desk.load_plan(chosen).expect("accepted");
    table.put(
        "write the 64-pair plan held",
        effort.both(
            200,
            || {
                black_box(black_box(&desk).write_plan(&mut out)).expect("a plan is held");
            },
            || {
                let (instance, plan) = read();
                black_box(fast::plan::write(&instance, &plan, &mut other));
            },
        ),
    );
}
