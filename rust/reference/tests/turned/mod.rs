//! The four conversions of old season files, each with a buffer of the right
//! size: the bytes written, or the number of the refusal.

// Every test file compiles this module for itself and uses its part of it.
#![allow(dead_code)]

use reference::desk::Desk;
use reference::limits::{MAX_PLAN_BYTES, MAX_ROSTER_BYTES};
use reference::refusal::Refusal;
use reference::seasons;

use crate::lent::JUNK;

/// The bytes of a file, or the number of a refusal.
pub type Turned = Result<Vec<u8>, u8>;

/// What a call writes to the front of a buffer of junk. It writes nothing behind
/// it, and on a refusal nothing at all.
pub fn written(size: usize, call: impl FnOnce(&mut [u8]) -> Result<usize, Refusal>) -> Turned {
    let mut out = vec![JUNK; size];
    let answer = call(&mut out).map_err(Refusal::number);
    let rest = out.split_off(answer.unwrap_or(0));
    assert!(rest.iter().all(|&byte| byte == JUNK));
    answer.map(|_| out)
}

pub fn roster_to_new(file: &[u8]) -> Turned {
    written(MAX_ROSTER_BYTES, |out| seasons::roster_to_new(file, out))
}

pub fn roster_to_old(file: &[u8]) -> Turned {
    written(MAX_ROSTER_BYTES, |out| seasons::roster_to_old(file, out))
}

/// A plan's conversions leave the desk alike.
pub fn plan_to_new(desk: &Desk, file: &[u8]) -> Turned {
    written(MAX_PLAN_BYTES, |out| {
        let (after, answer) = desk.clone().plan_to_new(file, out);
        assert_eq!(after, *desk);
        answer
    })
}

pub fn plan_to_old(desk: &Desk, file: &[u8]) -> Turned {
    written(MAX_PLAN_BYTES, |out| {
        let (after, answer) = desk.clone().plan_to_old(file, out);
        assert_eq!(after, *desk);
        answer
    })
}
