//! Random sequences of desk calls through the wrapper.

mod calls;
mod change;
mod common;
mod found;
mod lent;
mod sequence;

use calls::Calls;
use lent::{Buffers, SIZES};
use reference::random::Random;

#[test]
fn random_sequences() {
    sequence::run(calls::Desk::open, 91, 100_000, 20);
}

/// What the sequences hold a find against sees a length that is wrong.
#[test]
#[should_panic(expected = "the lengths of the plan and of its rival")]
fn a_pair_too_many_in_a_length() {
    let file = common::P7_TWICE;
    let before = Buffers::new(&mut Random::new(92), SIZES);
    let [mut own, mut other] = [before.clone(), before.clone()];
    let desk = common::desk_with(file).expect("accepted");
    let held = common::held_by(&desk);
    let (_, answer) = calls::Desk(desk).find(own.lend());
    let (found, [plan, rival]) = answer.expect("a roster is held");
    let (held, expected) = held.find(other.lend());
    let roster = held.roster().expect("a roster is held");
    let expected = expected.expect("a roster is held");
    let told = (found, [plan + planner::PAIR_BYTES, rival]);
    found::same_found(roster, &before, (told, &own), (expected, other));
}
