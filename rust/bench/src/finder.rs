//! The finder on the longest roster, from a desk that holds it to the answer:
//! typical shapes, the slowest of many, and how much stack a call takes.

use std::hint::black_box;
use std::sync::OnceLock;
use std::time::Instant;

use planner::Step;
use reference::fast::{self, finder::Ending};
use reference::random::{self, Random};
use reference::roster;

use crate::lent::{loaded, Buffers};
use crate::longest::longest;
use crate::measure::Effort;
use crate::stack;
use crate::table::Table;

/// The fast reading's finder with all bytes written.
pub fn find(bytes: &[u8], out: &mut Buffers) {
    let instance = fast::roster::read(bytes).expect("accepted");
    let answer = fast::finder::find(&instance);
    for (place, step) in out.diary.iter_mut().zip(&answer.steps) {
        let (surveyor, stand, shift) = instance.numbers(step.pair);
        *place = Step {
            fate: 2 - u8::from(step.fixed),
            surveyor,
            stand,
            shift,
            rule: step.rule,
        };
    }
    match answer.ending {
        Ending::Plan(plan) => {
            fast::plan::write(&instance, &plan, &mut out.plan);
        }
        Ending::Left(left) => {
            fast::plan::write_pairs(&instance, &left, &mut out.left);
        }
        Ending::Rivalled { candidate, rival } => {
            fast::plan::write(&instance, &candidate, &mut out.plan);
            fast::plan::write(&instance, &rival.plan, &mut out.rival);
        }
    }
}

/// How a roster ends, with the number of steps.
fn ending(bytes: &[u8]) -> String {
    let instance = fast::roster::read(bytes).expect("accepted");
    let answer = fast::finder::find(&instance);
    let kind = match answer.ending {
        Ending::Plan(_) => "plan",
        Ending::Left(_) => "left",
        Ending::Rivalled { .. } => "rivalled",
    };
    format!("{} steps, {kind}", answer.steps.len())
}

/// A roster's bytes, and what they are in words.
type Named = (String, Vec<u8>);

/// Random rosters of the longest kind: many shapes, from all strict to all
/// tied, from agreement to opposition.
fn random_rosters(random: &mut Random, each: usize) -> Vec<Named> {
    let mut rosters = Vec::new();
    for ties in [0, 30, 60, 100] {
        for opposed in [0, 30, 60, 100] {
            for _ in 0..each {
                let roster = random::roster(random, &random::longest_shape(ties, opposed));
                let name = format!("{ties}% of stands tie, {opposed}% oppose");
                rosters.push((name, roster::write(&roster)));
            }
        }
    }
    rosters
}

/// The roster on which the call takes longest, by the best of three calls: looked for
/// once, so that all runs have the same.
fn slowest(effort: Effort, random: &mut Random) -> &'static Named {
    static SLOWEST: OnceLock<Named> = OnceLock::new();
    SLOWEST.get_or_init(|| {
        let rosters = random_rosters(random, if effort.quick { 1 } else { 20 });
        let many = rosters.len();
        let mut buffers = Buffers::new();
        let mut longest = |(_, bytes): &Named| {
            let desk = loaded(bytes);
            let mut once = || {
                let start = Instant::now();
                buffers.find(&desk);
                start.elapsed()
            };
            once().min(once()).min(once())
        };
        let timed = rosters.into_iter().map(|named| (longest(&named), named));
        let slowest = timed.max_by_key(|&(time, _)| time);
        let (name, bytes) = slowest.expect("some rosters").1;
        (format!("slowest of {many} ({name})"), bytes)
    })
}

/// The times of the proved call and of the reference.
pub fn times(effort: Effort, bytes: &[u8]) -> Vec<f64> {
    let desk = loaded(bytes);
    let (mut ours, mut theirs) = (Buffers::new(), Buffers::new());
    effort.both(
        1,
        || ours.find(black_box(&desk)),
        || find(black_box(bytes), &mut theirs),
    )
}

pub fn table(effort: Effort) -> Table {
    let mut table = Table::new("finder");
    let mut random = Random::new(10);
    let rosters = longest(&mut random).map(|(name, roster)| (name, roster::write(&roster)));
    let (name, slowest) = slowest(effort, &mut random);
    let rosters = rosters.iter().map(|(name, bytes)| (*name, bytes));
    let rosters: Vec<(&str, &Vec<u8>)> = rosters.chain([(name.as_str(), slowest)]).collect();
    for (name, bytes) in &rosters {
        table.put(
            format!("find on the longest roster, {name}: {}", ending(bytes)),
            times(effort, bytes),
        );
    }
    let depths = rosters.iter().map(|(_, bytes)| {
        let desk = loaded(bytes);
        stack::depth(move || Buffers::new().find(&desk))
    });
    let deepest = depths.max().unwrap_or(0).div_ceil(1024);
    table.note(format!("A call takes {deepest} KiB of stack."));
    table
}
