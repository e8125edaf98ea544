//! The two ways of a file, by the proved calls.

use std::ffi::OsStr;

use planner::{Desk, Refusal, PLAN_BYTES, ROSTER_BYTES};

#[derive(Clone, Copy)]
pub enum Way {
    ToNew,
    ToOld,
}

/// A roster that was turned, and a desk on which its plans are.
pub struct Turned {
    pub file: Vec<u8>,
    pub desk: Desk,
}

impl Way {
    pub fn named(word: &OsStr) -> Option<Way> {
        match word.to_str()? {
            "to-new" => Some(Way::ToNew),
            "to-old" => Some(Way::ToOld),
            _ => None,
        }
    }

    pub fn roster(self, file: &[u8]) -> Result<Turned, Refusal> {
        let mut out = [0; ROSTER_BYTES];
        let length = match self {
            Way::ToNew => planner::roster_to_new(file, &mut out),
            Way::ToOld => planner::roster_to_old(file, &mut out),
        }?;
        let turned = &out[..length];
        let mut desk = Desk::open();
        // a desk holds new rosters only
        desk.load_roster(match self {
            Way::ToNew => turned,
            Way::ToOld => file,
        })?;
        Ok(Turned {
            file: turned.to_vec(),
            desk,
        })
    }

    pub fn plan(self, desk: &Desk, file: &[u8]) -> Result<Vec<u8>, Refusal> {
        let mut out = [0; PLAN_BYTES];
        let length = match self {
            Way::ToNew => desk.plan_to_new(file, &mut out),
            Way::ToOld => desk.plan_to_old(file, &mut out),
        }?;
        Ok(out[..length].to_vec())
    }
}
