//! The buffers that calls are lent, and whether a call wrote what it should and
//! nothing else.

// Every test file compiles this module for itself and uses its part of it.
#![allow(dead_code)]

use reference::days::{busiest, is_sheet};
use reference::desk::{Facing, Lent, Record, DIARY_RECORDS, LEFT_BYTES};
use reference::limits::{MAX_PAIRING_BYTES, MAX_PLAN_BYTES, MAX_RANK};
use reference::plan::Plan;
use reference::random::Random;
use reference::ranges::{self, Range};
use reference::roster::{Pair, Roster};

use crate::common::junk;

/// Whether a buffer begins with `front` and is as it was behind it.
pub fn only_front(before: &[u8], after: &[u8], front: &[u8]) {
    assert_eq!(&after[..front.len()], front);
    assert_eq!(after[front.len()..], before[front.len()..]);
}

/// Whether a buffer begins with a sheet of the plan, of so many days, and is as it
/// was behind it: the days go from 1 to the entries of the busiest node, without a
/// gap. Which sheet it is, is open.
pub fn check_days(roster: &Roster, plan: &Plan, before: &[u8], after: &[u8], count: usize) {
    let pairs: Vec<Pair> = plan.pairs(roster).collect();
    let days = &after[..count];
    assert!(is_sheet(&pairs, days), "{pairs:?}: {days:?}");
    let last = days.iter().max().map_or(0, |&last| usize::from(last));
    assert_eq!(last, busiest(&pairs), "{pairs:?}: {days:?}");
    only_front(before, after, days);
}

/// A range of ranks for each list entry of a roster, as a file: some settled at the
/// roster's rank, the others anywhere.
pub fn ranges_file(random: &mut Random, roster: &Roster) -> Vec<u8> {
    let any = |rank: u8| {
        if random.chance(30) {
            return Range::settled(rank);
        }
        let low = random.within(&(1..=MAX_RANK));
        let high = random.within(&(low..=MAX_RANK));
        Range { low, high }
    };
    let ranges: Vec<Range> = ranges::roster_ranks(roster).into_iter().map(any).collect();
    ranges::write(&ranges)
}

/// Whether a buffer begins with so many ranks, one within each range of the file,
/// with which the vote of two plans is the one answered, and is as it was behind
/// them. Which choice it is, is open.
pub fn check_ranks(
    roster: &Roster,
    [first, second, file]: [&[u8]; 3],
    before: &[u8],
    after: &[u8],
    (vote, count): (i16, usize),
) {
    let ranks = &after[..count];
    let read = ranges::read(roster, file).expect("accepted");
    assert!(ranges::is_choice(&read, ranks), "{read:?}: {ranks:?}");
    let chosen: Vec<Range> = ranks.iter().copied().map(Range::settled).collect();
    let reached = ranges::least(roster, first, second, &ranges::write(&chosen));
    assert_eq!(reached.expect("accepted").0, vote);
    only_front(before, after, ranks);
}

/// Bytes of a diary's record.
pub const RECORD_BYTES: usize = 5;

/// The record of these bytes, and the bytes of a record.
pub fn record_of(bytes: &[u8]) -> Record {
    Record {
        fate: bytes[0],
        surveyor: bytes[1],
        stand: bytes[2],
        shift: bytes[3],
        rule: bytes[4],
    }
}

pub fn record_bytes(record: &Record) -> [u8; RECORD_BYTES] {
    [
        record.fate,
        record.surveyor,
        record.stand,
        record.shift,
        record.rule,
    ]
}

/// The buffers that the finder is lent.
#[derive(Clone, Debug, PartialEq, Eq)]
pub struct Buffers {
    pub diary: Vec<Record>,
    pub left: Vec<u8>,
    pub plan: Vec<u8>,
    pub rival: Vec<u8>,
}

/// What the buffers need: diary, left pairs, plan, rival.
pub const SIZES: [usize; 4] = [DIARY_RECORDS, LEFT_BYTES, MAX_PLAN_BYTES, MAX_PLAN_BYTES];

impl Buffers {
    /// Buffers of these sizes, full of junk.
    pub fn new(random: &mut Random, [diary, left, plan, rival]: [usize; 4]) -> Buffers {
        let records = junk(random, RECORD_BYTES * diary);
        Buffers {
            diary: records.chunks_exact(RECORD_BYTES).map(record_of).collect(),
            left: junk(random, left),
            plan: junk(random, plan),
            rival: junk(random, rival),
        }
    }

    pub fn lend(&mut self) -> Lent<'_> {
        Lent {
            diary: &mut self.diary,
            left: &mut self.left,
            plan: &mut self.plan,
            rival: &mut self.rival,
        }
    }

    /// Whether these buffers begin with what was to be written and are behind
    /// it as they were before; gives the lengths of plan and rival.
    pub fn hold(
        &self,
        before: &Buffers,
        diary: &[Record],
        left: &[u8],
        plan: &[u8],
        rival: &[u8],
    ) -> [usize; 2] {
        assert_eq!(&self.diary[..diary.len()], diary);
        assert_eq!(self.diary[diary.len()..], before.diary[diary.len()..]);
        only_front(&before.left, &self.left, left);
        only_front(&before.plan, &self.plan, plan);
        only_front(&before.rival, &self.rival, rival);
        [plan.len(), rival.len()]
    }
}

/// The buffers for the pairings of both votes.
#[derive(Clone, Debug, PartialEq, Eq)]
pub struct Pairings {
    pub forward: Vec<u8>,
    pub back: Vec<u8>,
}

impl Pairings {
    /// Buffers of these sizes, full of junk.
    pub fn new(random: &mut Random, [forward, back]: [usize; 2]) -> Pairings {
        Pairings {
            forward: junk(random, forward),
            back: junk(random, back),
        }
    }

    /// Buffers of the least size, with one byte everywhere.
    pub fn of(byte: u8) -> Pairings {
        Pairings {
            forward: vec![byte; MAX_PAIRING_BYTES],
            back: vec![byte; MAX_PAIRING_BYTES],
        }
    }

    pub fn lend(&mut self) -> Facing<'_> {
        Facing {
            forward: &mut self.forward,
            back: &mut self.back,
        }
    }
}
