//! The desk and the buffers that a call of the finder's kind is lent.

use std::hint::black_box;

use planner::{Desk, Step};

/// The finder's buffers.
pub struct Buffers {
    pub diary: Vec<Step>,
    pub left: Vec<u8>,
    pub plan: Vec<u8>,
    pub rival: Vec<u8>,
}

impl Buffers {
    pub fn new() -> Buffers {
        Buffers {
            diary: vec![Step::default(); planner::DIARY_RECORDS],
            left: vec![0; planner::LEFT_BYTES],
            plan: vec![0; planner::PLAN_BYTES],
            rival: vec![0; planner::PLAN_BYTES],
        }
    }

    pub fn find(&mut self, desk: &Desk) {
        let found = desk.find(
            &mut self.diary,
            &mut self.left,
            &mut self.plan,
            &mut self.rival,
        );
        black_box(found).expect("a roster is held");
    }

    pub fn join(&mut self, desk: &mut Desk, quota: u8, list: &[u8]) {
        let found = desk.join(
            quota,
            list,
            &mut self.diary,
            &mut self.left,
            &mut self.plan,
            &mut self.rival,
        );
        black_box(found).expect("the joiner is taken");
    }

    pub fn leave(&mut self, desk: &mut Desk, number: u8) {
        let found = desk.leave(
            number,
            &mut self.diary,
            &mut self.left,
            &mut self.plan,
            &mut self.rival,
        );
        black_box(found).expect("the leaver is a surveyor");
    }
}

/// A desk with this roster.
pub fn loaded(roster: &[u8]) -> Desk {
    let mut desk = Desk::open();
    desk.load_roster(roster).expect("accepted");
    desk
}
