//! A surveyor joins or leaves, on a desk under test and on the reference desk:
//! the same answer, the same bytes in every lent buffer, the same held, and a
//! find on the desk that comes back gives the same once more, rival included.

// Every test file compiles this module for itself and uses its part of it.
#![allow(dead_code)]

use reference::changes;
use reference::desk::{Desk as Held, Found, Lent};
use reference::random::{stand_list, Random};
use reference::refusal::Refusal;
use reference::roster::{self, narrow, Roster, Side};

use crate::calls::{self, Calls, Told};
use crate::common::{damage, desk_with, files, files_of, held_by};
use crate::found::same_found;
use crate::lent::Buffers;

/// A joiner's quota and list, or a leaver's number.
#[derive(Clone, Debug)]
pub enum Change {
    Join(u8, Vec<u8>),
    Leave(u8),
}

impl Change {
    /// A change of what is held; now and then one that is refused.
    pub fn random(random: &mut Random, held: &Held) -> Change {
        if random.chance(50) {
            Change::joiner(random, held)
        } else {
            let surveyors = usize::from(count(held, Side::Surveyors));
            Change::Leave(narrow(random.below(surveyors + 2)))
        }
    }

    /// A joiner; now and then with a large quota or a damaged list.
    pub fn joiner(random: &mut Random, held: &Held) -> Change {
        let quota = match random.below(20) {
            0 => random.within(&(9..=255)),
            1 => random.within(&(3..=8)),
            _ => random.within(&(0..=2)),
        };
        let mut list = stand_list(random, count(held, Side::Stands), 30);
        if random.chance(25) {
            damage(random, &mut list);
        }
        Change::Join(quota, list)
    }

    fn on<D: Calls>(&self, desk: D, lent: Lent) -> (D, Result<Told, u8>) {
        match self {
            Change::Join(quota, list) => desk.join(*quota, list, lent),
            Change::Leave(number) => desk.leave(*number, lent),
        }
    }

    fn on_reference(&self, desk: Held, lent: Lent) -> (Held, Result<Found, Refusal>) {
        match self {
            Change::Join(quota, list) => desk.join(*quota, list, lent),
            Change::Leave(number) => desk.leave(*number, lent),
        }
    }

    /// Makes the change on both desks, each lent what is in these buffers.
    pub fn check<D: Calls>(&self, ours: D, theirs: Held, before: &Buffers) -> Changed<D> {
        let [mut own, mut other] = [before.clone(), before.clone()];
        let (ours, answer) = self.on(ours, own.lend());
        let (theirs, expected) = self.on_reference(theirs, other.lend());
        let number = expected.err().map_or(0, Refusal::number);
        assert_eq!(answer.err().unwrap_or(0), number, "{self:?}");
        let (Ok(found), Ok(expected)) = (answer, expected) else {
            assert_eq!(own, *before, "{self:?}");
            return Changed {
                ours,
                theirs,
                answer: answer.map(|(found, _)| found),
            };
        };
        let roster = theirs.roster().expect("a roster");
        same_found(roster, before, (found, &own), (expected, other));
        let mut fresh = before.clone();
        let (ours, again) = ours.find(fresh.lend());
        assert_eq!((again, fresh), (answer, own), "{self:?}");
        Changed {
            ours,
            theirs,
            answer: answer.map(|(found, _)| found),
        }
    }

    /// Makes the change on a desk of the wrapper and looks at its own bytes too.
    pub fn check_desk(&self, desk: &mut planner::Desk, before: &Buffers) -> Result<Found, u8> {
        let held = held_by(desk);
        let changed = self.check(calls::Desk(desk.clone()), held, before);
        let calls::Desk(after) = changed.ours;
        match changed.answer {
            Ok(_) => self.check_stored(desk, &after, &changed.theirs),
            Err(_) => assert!(after == *desk, "{self:?}"),
        }
        *desk = after;
        changed.answer
    }

    /// Makes a change that is taken on a desk whose roster is too large for the
    /// reference's finder: in its place is a find on a desk newly loaded with
    /// the changed roster.
    pub fn check_large(&self, desk: &mut planner::Desk, before: &Buffers) -> Found {
        let held = held_by(desk);
        let roster = self.of(held.roster().expect("a roster"));
        let file = roster::write(&roster);
        let [mut own, mut fresh] = [before.clone(), before.clone()];
        let (calls::Desk(after), answer) = self.on(calls::Desk(desk.clone()), own.lend());
        self.check_stored(desk, &after, &held.with_roster(roster));
        let loaded = desk_with(&file).expect("accepted");
        let (_, found) = calls::Desk(loaded).find(fresh.lend());
        assert_eq!((answer, own), (found, fresh), "{self:?}");
        *desk = after;
        found.expect("a roster is held").0
    }

    /// The changed roster, by the reference.
    fn of(&self, roster: &Roster) -> Roster {
        let changed = match self {
            Change::Join(quota, list) => changes::join(roster, *quota, list),
            Change::Leave(number) => changes::leave(roster, *number),
        };
        changed.expect("accepted")
    }

    /// Whether the files in a desk are those of what is held. Where no plan is held
    /// there is not a byte of one, so that none comes to be one by a later change;
    /// of a proposal there is none either, or its bytes are as they were.
    fn check_stored(&self, before: &planner::Desk, after: &planner::Desk, held: &Held) {
        assert_eq!(held_by(after), *held, "{self:?}");
        let [roster, plan, _] = files_of(held);
        let [.., proposal] = files(before);
        let before = held_by(before);
        let closes = self.closes(before.roster().expect("a roster"));
        let proposal = if closes { &[] } else { proposal };
        assert_eq!(files(after), [&roster, &plan, proposal], "{self:?}");
    }

    /// Whether a change that is taken closes a proposal: a join does, and a leave of
    /// somebody who has a quota or a pair.
    fn closes(&self, roster: &Roster) -> bool {
        match self {
            Change::Join(..) => true,
            Change::Leave(number) => {
                let leaver = &roster.nodes(Side::Surveyors)[usize::from(*number) - 1];
                leaver.quota > 0 || leaver.list.length() > 0
            }
        }
    }
}

/// How many nodes of a side are held.
fn count(held: &Held, side: Side) -> u8 {
    held.roster()
        .map_or(0, |roster| narrow(roster.nodes(side).len()))
}

/// What a change leaves: both desks, and the answer of the one under test.
pub struct Changed<D> {
    pub ours: D,
    pub theirs: Held,
    pub answer: Result<Found, u8>,
}
