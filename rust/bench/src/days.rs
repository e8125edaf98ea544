//! The held plan spread over days: plans of 64 entries, from a desk that holds
//! roster and plan to the days, the reference from the bytes of both.

use std::hint::black_box;

use planner::{DAY_BYTES, PLAN_BYTES};
use reference::fast;
use reference::limits::MAX_PLAN_PAIRS;
use reference::plan;
use reference::random::{self, Random};
use reference::roster;

use crate::lent::loaded;
use crate::measure::Effort;
use crate::table::Table;

/// Nodes of quota 8, or of quota 2: as many as 64 places allow.
const EIGHT: (u8, u8) = (8, 8);
const TWO: (u8, u8) = (32, 2);

pub fn rows(effort: Effort, table: &mut Table) {
    let mut measure = |name, surveyors, stands| row(effort, table, name, surveyors, stands);
    let alone = [
        measure("32 surveyors and 32 stands of quota 2", TWO, TWO),
        measure("eight stands of quota 8", TWO, EIGHT),
        measure("eight surveyors of quota 8", EIGHT, TWO),
        measure("eight of quota 8 on both sides", EIGHT, EIGHT),
    ];
    let told = |side: usize| {
        let times = alone.map(|times| format!("{:.2}", times[side]));
        times.join(", ")
    };
    table.note(format!(
        "The spreading alone, in the order of its rows: {} microseconds, a difference of two times, the call's less that \
         of writing the plan; the reference's {}.",
        told(0),
        told(1)
    ));
}

/// A row, and the times of the spreading alone, without the readings. The proved side
/// exports none; writing the plan reads the same.
fn row(
    effort: Effort,
    table: &mut Table,
    name: &str,
    surveyors: (u8, u8),
    stands: (u8, u8),
) -> [f64; 2] {
    let mut random = Random::new(29);
    let mut shape = random::longest_shape(50, 20);
    shape.counts = [surveyors.0..=surveyors.0, stands.0..=stands.0];
    shape.quotas = [surveyors.1..=surveyors.1, stands.1..=stands.1];
    let drawn = random::roster(&mut random, &shape);
    let chosen = random::plan_of(&mut random, &drawn, MAX_PLAN_PAIRS);
    let (file, plan) = (roster::write(&drawn), plan::write(&drawn, &chosen));
    let mut desk = loaded(&file);
    desk.load_plan(&plan).expect("accepted");
    let (mut days, mut other, mut written) = ([0; DAY_BYTES], [0; DAY_BYTES], [0; PLAN_BYTES]);
    let read = || {
        let instance = fast::roster::read(black_box(&file)).expect("accepted");
        let chosen = fast::plan::read(&instance, black_box(&plan)).expect("accepted");
        (instance, chosen)
    };
    let times = effort.in_turn(
        200,
        &mut [
            &mut || {
                black_box(black_box(&desk).spread(&mut days)).expect("a plan is held");
            },
            &mut || {
                let (instance, chosen) = read();
                black_box(fast::days::spread(&instance, &chosen, &mut other));
            },
            &mut || {
                black_box(black_box(&desk).write_plan(&mut written)).expect("a plan is held");
            },
        ],
    );
    let (instance, chosen) = read();
    let alone = effort.time(2_000, || {
        let (instance, chosen) = (black_box(&instance), black_box(&chosen));
        black_box(fast::days::spread(instance, chosen, &mut days));
    });
    table.put(format!("spread 64 entries, {name}"), times[..2].to_vec());
    [times[0] - times[2], alone]
}
