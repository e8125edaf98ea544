//! The held plan as the calls of a session and their answers tell it, with no
//! desk and no roster: "the held plan is the last one loaded or committed since
//! the last roster, less the pairs of those who left after it; refused calls
//! count for nothing." Pairs are the numbers in the files.

use crate::limits::{NARROW_FIELD, PAIR_FIELD};

/// A pair as a plan file has it: surveyor, stand, shift.
pub type Numbers = [u8; PAIR_FIELD];

/// What a call tells that was not refused. The other calls tell nothing.
#[derive(Clone, Debug, PartialEq, Eq)]
pub enum Event {
    LoadRoster,
    LoadPlan(Vec<Numbers>),
    Propose(Vec<Numbers>),
    Commit,
    Leave(u8),
}

/// The pairs of a plan file: what is behind its count, in threes.
pub fn pairs(file: &[u8]) -> Vec<Numbers> {
    let pairs = file.get(NARROW_FIELD..).unwrap_or_default();
    pairs
        .chunks_exact(PAIR_FIELD)
        .map(|pair| pair.try_into().expect("three numbers"))
        .collect()
}

/// The events of a session, in their order.
#[derive(Clone, Debug, Default)]
pub struct History {
    events: Vec<Event>,
}

impl History {
    /// Notes what a call tells; a refused one tells nothing.
    pub fn tell<A, R>(&mut self, answer: &Result<A, R>, event: impl FnOnce() -> Event) {
        if answer.is_ok() {
            self.events.push(event());
        }
    }

    /// The pairs of the held plan; none where no plan is held.
    pub fn plan(&self) -> Option<Vec<Numbers>> {
        let is_roster = |event: &Event| matches!(event, Event::LoadRoster);
        let is_plan = |event: &Event| matches!(event, Event::LoadPlan(_) | Event::Commit);
        let roster = self.events.iter().rposition(is_roster)?;
        let since = &self.events[roster..];
        let made = since.iter().rposition(is_plan)?;
        let (before, after) = (&since[..made], &since[made..]);
        let mut plan = match &since[made] {
            Event::LoadPlan(pairs) => pairs.clone(),
            _ => last_proposal(before),
        };
        plan.retain(|&[surveyor, ..]| !after.contains(&Event::Leave(surveyor)));
        Some(plan)
    }
}

/// The proposal that a commit takes: the last one before it.
fn last_proposal(before: &[Event]) -> Vec<Numbers> {
    let proposal = before.iter().rev().find_map(|event| match event {
        Event::Propose(pairs) => Some(pairs.clone()),
        _ => None,
    });
    proposal.expect("a commit that is not refused has a proposal")
}
