//! The calls that can take something in, on a desk of the wrapper and on the
//! reference desk that holds the same: the same answer, the same held, and the
//! desk's own files as the contract says.

use planner::{Desk, ProposalVotes};
use reference::compare::Votes;

use crate::change::Change;
use crate::common::{files, held_by, same_refusal};
use crate::lent::{Buffers, Pairings};

#[derive(Clone, Debug)]
pub enum Call {
    LoadRoster(Vec<u8>),
    LoadPlan(Vec<u8>),
    Propose(Vec<u8>),
    Commit,
    Change(Change),
}

/// The votes of a proposal and of the held plan, where the call proposes; or a
/// refusal's number.
pub type Answer = Result<Option<(i16, i16)>, u8>;

impl Call {
    /// Makes the call on both desks; a change is lent these buffers.
    pub fn check(&self, desk: &mut Desk, lent: impl FnOnce() -> Buffers) -> Answer {
        let before = desk.clone();
        let held = held_by(desk);
        let [roster, plan, proposal] = files(&before);
        // our answer, theirs, and the files that are to be in an accepting desk
        let (answer, (held, expected), stored) = match self {
            Call::LoadRoster(file) => (
                desk.load_roster(file).map(|()| None),
                told(held.load_roster(file), |()| None),
                [file, &[][..], &[]],
            ),
            Call::LoadPlan(file) => (
                desk.load_plan(file).map(|()| None),
                told(held.load_plan(file), |()| None),
                [roster, file, &[]],
            ),
            Call::Propose(file) => {
                let mut own = Pairings::of(0xaa);
                let mut other = own.clone();
                let votes = desk.propose(file, &mut own.forward, &mut own.back);
                let expected = held.propose(file, other.lend());
                assert_eq!(own, other, "{self:?}");
                (
                    votes.map(own_votes),
                    told(expected, their_votes),
                    [roster, plan, file],
                )
            }
            Call::Commit => (
                desk.commit().map(|()| None),
                told(held.commit(), |()| None),
                [roster, proposal, &[]],
            ),
            Call::Change(change) => return change.check_desk(desk, &lent()).map(|_| None),
        };
        assert_eq!(held_by(desk), held, "{self:?}");
        match (answer, expected) {
            (Err(ours), Err(theirs)) => {
                same_refusal(ours, theirs);
                assert!(*desk == before, "{self:?}");
            }
            (ours, theirs) => {
                assert_eq!(ours.ok(), theirs.ok(), "{self:?}");
                assert_eq!(files(desk), stored, "{self:?}");
                self.check_kept(&before, desk);
            }
        }
        answer.map_err(|refusal| refusal.number)
    }

    /// Whether the files that an accepted call does not touch are as they were, to
    /// the last byte of their arrays.
    fn check_kept(&self, before: &Desk, after: &Desk) {
        if !matches!(self, Call::LoadRoster(_)) {
            let roster = (before.roster_len, before.roster);
            assert_eq!((after.roster_len, after.roster), roster, "{self:?}");
        }
        if matches!(self, Call::Propose(_)) {
            let plan = (before.plan_len, before.plan);
            assert_eq!((after.plan_len, after.plan), plan, "{self:?}");
        }
    }
}

fn told<D, A, B, R>(
    (desk, answer): (D, Result<A, R>),
    tell: impl FnOnce(A) -> B,
) -> (D, Result<B, R>) {
    (desk, answer.map(tell))
}

fn own_votes(votes: ProposalVotes) -> Option<(i16, i16)> {
    Some((votes.proposal, votes.held))
}

fn their_votes(votes: Votes) -> Option<(i16, i16)> {
    Some((votes.first_against_second, votes.second_against_first))
}
