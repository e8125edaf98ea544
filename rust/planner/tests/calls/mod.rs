//! The proved desk with the answers of the reference desk, so that the two can
//! be held against each other: a refusal is its number, a part of a file the
//! file and the range.

// Every test file compiles this module for itself and uses its part of it.
#![allow(dead_code)]

use planner::{Holding, Refusal, Step, Verdict};
use reference::compare::{File, Part, Winner};
use reference::desk::{Facing, Found, Judged, Lent, NoneKind, Record};

use crate::common::files;

pub struct Desk(pub planner::Desk);

/// A pair by the numbers of its surveyor and its stand, and its shift.
pub type Pair = (u8, u8, u8);

/// What was found, and the lengths of the plan or candidate and of the rival that
/// were written, 0 where none was.
pub type Told = (Found, [usize; 2]);

/// Both votes and who wins, and the part that is handed back.
pub type Compared = (Result<(i16, i16, Winner), u8>, Part);

fn number(refusal: Refusal) -> u8 {
    refusal.number
}

/// A verdict as the reference tells it, with the length of the rival written.
pub fn judged(verdict: Verdict) -> (Judged, usize) {
    match verdict {
        Verdict::Strong => (Judged::Strong, 0),
        Verdict::Popular { vote, rival } => (Judged::Popular(vote), rival),
        Verdict::Beaten { vote, rival } => (Judged::Beaten(vote), rival),
    }
}

/// The winner as the reference tells it.
pub fn winner(answer: planner::Winner) -> Winner {
    match answer {
        planner::Winner::First => Winner::First,
        planner::Winner::Second => Winner::Second,
        planner::Winner::Both => Winner::Both,
        planner::Winner::Neither => Winner::Neither,
    }
}

fn found(answer: planner::Found) -> Told {
    let none = |steps, kind| Found::None { steps, kind };
    match answer {
        planner::Found::Plan { steps, plan } => (Found::Plan { steps }, [plan, 0]),
        planner::Found::Left { steps, pairs } => (none(steps, NoneKind::Left(pairs)), [0, 0]),
        planner::Found::Rivalled {
            steps,
            vote,
            plan,
            rival,
        } => (none(steps, NoneKind::Rivalled(vote)), [plan, rival]),
    }
}

/// A call that is lent these buffers, with the diary's records as steps.
fn with_steps(
    lent: Lent,
    call: impl FnOnce(&mut [Step], &mut [u8], &mut [u8], &mut [u8]) -> Result<planner::Found, Refusal>,
) -> Result<Told, u8> {
    let step = |record: &Record| Step {
        fate: record.fate,
        surveyor: record.surveyor,
        stand: record.stand,
        shift: record.shift,
        rule: record.rule,
    };
    let mut diary: Vec<Step> = lent.diary.iter().map(step).collect();
    let answer = call(&mut diary, lent.left, lent.plan, lent.rival);
    for (record, step) in lent.diary.iter_mut().zip(&diary) {
        *record = Record {
            fate: step.fate,
            surveyor: step.surveyor,
            stand: step.stand,
            shift: step.shift,
            rule: step.rule,
        };
    }
    answer.map(found).map_err(number)
}

/// Which range of which file a part is.
fn place(part: &[u8], first: &[u8], second: &[u8]) -> Part {
    let within = |file: &[u8]| {
        let start = part.as_ptr() as usize;
        let from = start.checked_sub(file.as_ptr() as usize)?;
        (from + part.len() <= file.len()).then_some(from..from + part.len())
    };
    let (file, range) = match (within(first), within(second)) {
        (Some(range), _) => (File::First, range),
        (None, Some(range)) => (File::Second, range),
        (None, None) => panic!("a part of neither file"),
    };
    Part { file, range }
}

/// The calls of a desk as the reference makes them: the desk goes in by value
/// and comes back with the answer.
pub trait Calls: Sized {
    fn load_roster(self, file: &[u8]) -> (Self, Result<(), u8>);
    fn load_plan(self, file: &[u8]) -> (Self, Result<(), u8>);
    fn propose(self, file: &[u8], facing: Facing) -> (Self, Result<(i16, i16), u8>);
    fn commit(self) -> (Self, Result<(), u8>);
    fn write_roster(self, out: &mut [u8]) -> (Self, Result<usize, u8>);
    fn write_plan(self, out: &mut [u8]) -> (Self, Result<usize, u8>);
    fn write_proposal(self, out: &mut [u8]) -> (Self, Result<usize, u8>);
    fn spread(self, out: &mut [u8]) -> (Self, Result<usize, u8>);
    fn plan_to_new(self, file: &[u8], out: &mut [u8]) -> (Self, Result<usize, u8>);
    fn plan_to_old(self, file: &[u8], out: &mut [u8]) -> (Self, Result<usize, u8>);
    fn find(self, lent: Lent) -> (Self, Result<Told, u8>);
    fn join(self, quota: u8, list: &[u8], lent: Lent) -> (Self, Result<Told, u8>);
    fn leave(self, number: u8, lent: Lent) -> (Self, Result<Told, u8>);
    fn judge(self, rival: &mut [u8], pairing: &mut [u8]) -> (Self, Result<(Judged, usize), u8>);
    fn compare(self, first: &[u8], second: &[u8], facing: Facing) -> (Self, Compared);
    fn least(self, files: [&[u8]; 3], out: &mut [u8]) -> (Self, Result<(i16, usize), u8>);
    fn blocking(self) -> (Self, Result<Option<Pair>, u8>);
    fn holds(self) -> (Self, u8);

    /// The desk's own files, at the front of their arrays: roster, plan, proposal.
    fn files(&self) -> [Vec<u8>; 3];
}

impl Desk {
    pub fn open() -> Desk {
        Desk(planner::Desk::open())
    }
}

impl Calls for Desk {
    fn load_roster(mut self, file: &[u8]) -> (Desk, Result<(), u8>) {
        let answer = self.0.load_roster(file).map_err(number);
        (self, answer)
    }

    fn load_plan(mut self, file: &[u8]) -> (Desk, Result<(), u8>) {
        let answer = self.0.load_plan(file).map_err(number);
        (self, answer)
    }

    fn propose(mut self, file: &[u8], facing: Facing) -> (Desk, Result<(i16, i16), u8>) {
        let answer = self.0.propose(file, facing.forward, facing.back);
        let votes = answer.map(|votes| (votes.proposal, votes.held));
        (self, votes.map_err(number))
    }

    fn commit(mut self) -> (Desk, Result<(), u8>) {
        let answer = self.0.commit().map_err(number);
        (self, answer)
    }

    fn write_roster(self, out: &mut [u8]) -> (Desk, Result<usize, u8>) {
        let answer = self.0.write_roster(out).map_err(number);
        (self, answer)
    }

    fn write_plan(self, out: &mut [u8]) -> (Desk, Result<usize, u8>) {
        let answer = self.0.write_plan(out).map_err(number);
        (self, answer)
    }

    fn write_proposal(self, out: &mut [u8]) -> (Desk, Result<usize, u8>) {
        let answer = self.0.write_proposal(out).map_err(number);
        (self, answer)
    }

    fn holds(self) -> (Desk, u8) {
        let holds = match self.0.holds() {
            Holding::Nothing => 0,
            Holding::Roster => 1,
            Holding::Plan => 2,
            Holding::Proposal => 3,
        };
        (self, holds)
    }

    fn spread(self, out: &mut [u8]) -> (Desk, Result<usize, u8>) {
        let answer = self.0.spread(out).map_err(number);
        (self, answer)
    }

    fn plan_to_new(self, file: &[u8], out: &mut [u8]) -> (Desk, Result<usize, u8>) {
        let answer = self.0.plan_to_new(file, out).map_err(number);
        (self, answer)
    }

    fn plan_to_old(self, file: &[u8], out: &mut [u8]) -> (Desk, Result<usize, u8>) {
        let answer = self.0.plan_to_old(file, out).map_err(number);
        (self, answer)
    }

    fn find(self, lent: Lent) -> (Desk, Result<Told, u8>) {
        let answer = with_steps(lent, |diary, left, plan, rival| {
            self.0.find(diary, left, plan, rival)
        });
        (self, answer)
    }

    fn join(mut self, quota: u8, list: &[u8], lent: Lent) -> (Desk, Result<Told, u8>) {
        let answer = with_steps(lent, |diary, left, plan, rival| {
            self.0.join(quota, list, diary, left, plan, rival)
        });
        (self, answer)
    }

    fn leave(mut self, number: u8, lent: Lent) -> (Desk, Result<Told, u8>) {
        let answer = with_steps(lent, |diary, left, plan, rival| {
            self.0.leave(number, diary, left, plan, rival)
        });
        (self, answer)
    }

    fn judge(self, rival: &mut [u8], pairing: &mut [u8]) -> (Desk, Result<(Judged, usize), u8>) {
        let answer = self.0.judge(rival, pairing).map(judged).map_err(number);
        (self, answer)
    }

    fn compare(self, first: &[u8], second: &[u8], facing: Facing) -> (Desk, Compared) {
        let answer = self.0.compare(first, second, facing.forward, facing.back);
        let outcome = answer
            .outcome
            .map(|votes| (votes.first, votes.second, winner(votes.winner)));
        let part = place(answer.part, first, second);
        (self, (outcome.map_err(number), part))
    }

    fn least(self, files: [&[u8]; 3], out: &mut [u8]) -> (Desk, Result<(i16, usize), u8>) {
        let [first, second, ranges] = files;
        let answer = self.0.least(first, second, ranges, out);
        let answer = answer.map(|least| (least.vote, least.ranks));
        (self, answer.map_err(number))
    }

    fn blocking(self) -> (Desk, Result<Option<Pair>, u8>) {
        let answer = self.0.blocking().map_err(number);
        (self, answer)
    }

    fn files(&self) -> [Vec<u8>; 3] {
        files(&self.0).map(<[u8]>::to_vec)
    }
}
