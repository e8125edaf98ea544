//! The buffers that calls are lent, full of junk before.

// Every test file compiles this module for itself and uses its part of it.
#![allow(dead_code)]

use reference::desk::{Facing, Lent, Record, DIARY_RECORDS, LEFT_BYTES};
use reference::limits::MAX_PLAN_BYTES;

pub const JUNK: u8 = 0xa5;
const NO_RECORD: Record = Record {
    fate: JUNK,
    surveyor: JUNK,
    stand: JUNK,
    shift: JUNK,
    rule: JUNK,
};

/// Whether a buffer begins with these bytes and is junk behind them.
fn only_front(buffer: &[u8], front: &[u8]) {
    assert_eq!(&buffer[..front.len()], front);
    assert!(buffer[front.len()..].iter().all(|&byte| byte == JUNK));
}

/// Buffers of given sizes for the pairings of both votes, full of junk.
#[derive(Clone, Debug, PartialEq, Eq)]
pub struct Pairings {
    pub forward: Vec<u8>,
    pub back: Vec<u8>,
}

impl Pairings {
    pub fn new([forward, back]: [usize; 2]) -> Pairings {
        Pairings {
            forward: vec![JUNK; forward],
            back: vec![JUNK; back],
        }
    }

    pub fn lend(&mut self) -> Facing<'_> {
        Facing {
            forward: &mut self.forward,
            back: &mut self.back,
        }
    }

    /// Whether the buffers begin with these and are junk behind them.
    pub fn hold(&self, forward: &[u8], back: &[u8]) {
        only_front(&self.forward, forward);
        only_front(&self.back, back);
    }
}

/// What the buffers need: diary, left pairs, plan, rival.
pub const SIZES: [usize; 4] = [DIARY_RECORDS, LEFT_BYTES, MAX_PLAN_BYTES, MAX_PLAN_BYTES];

/// Buffers of given sizes, full of junk.
#[derive(Clone, Debug, PartialEq, Eq)]
pub struct Buffers {
    diary: Vec<Record>,
    left: Vec<u8>,
    plan: Vec<u8>,
    rival: Vec<u8>,
}

impl Buffers {
    pub fn new([diary, left, plan, rival]: [usize; 4]) -> Buffers {
        Buffers {
            diary: vec![NO_RECORD; diary],
            left: vec![JUNK; left],
            plan: vec![JUNK; plan],
            rival: vec![JUNK; rival],
        }
    }

    pub fn lend(&mut self) -> Lent<'_> {
        Lent {
            diary: &mut self.diary,
            left: &mut self.left,
            plan: &mut self.plan,
            rival: &mut self.rival,
        }
    }

    /// Whether the buffers begin with these and are junk behind them.
    pub fn hold(&self, diary: &[Record], left: &[u8], plan: &[u8], rival: &[u8]) {
        only_front(&self.left, left);
        only_front(&self.plan, plan);
        only_front(&self.rival, rival);
        assert_eq!(&self.diary[..diary.len()], diary);
        let behind = &self.diary[diary.len()..];
        assert!(behind.iter().all(|&record| record == NO_RECORD));
    }
}

pub fn record(fate: u8, surveyor: u8, stand: u8, shift: u8, rule: u8) -> Record {
    Record {
        fate,
        surveyor,
        stand,
        shift,
        rule,
    }
}
