//! What the calls answer, in words: the numbers that cross the boundary are
//! turned into these.

use crate::ffi;
use crate::refusal::{self, Refusal};

/// What the votes against all plans within the quotas make of a plan. A plan
/// that is not strong has a rival: the plan's vote against it, and how many bytes
/// of it are in the rival's buffer.
#[derive(Clone, Copy, Debug, PartialEq, Eq)]
pub enum Verdict {
    Strong,
    Popular { vote: i16, rival: usize },
    Beaten { vote: i16, rival: usize },
}

/// Which of two plans beats the other: a plan does when the other's vote against
/// it is below zero, so that each may beat the other.
#[derive(Clone, Copy, Debug, PartialEq, Eq)]
pub enum Winner {
    First,
    Second,
    Both,
    /// Exactly if both votes are zero.
    Neither,
}

/// Both votes, first against second and second against first, and who wins.
#[derive(Clone, Copy, Debug, PartialEq, Eq)]
pub struct Votes {
    pub first: i16,
    pub second: i16,
    pub winner: Winner,
}

/// The votes or a refusal, and in both cases a part of one of the two files: the
/// pair bytes of the only winner, or the empty part at the first file's start.
#[derive(Clone, Copy, Debug, PartialEq, Eq)]
pub struct Comparison<'a> {
    pub outcome: Result<Votes, Refusal>,
    pub part: &'a [u8],
}

/// What a desk holds, each with what comes before it.
#[derive(Clone, Copy, Debug, PartialEq, Eq, PartialOrd, Ord)]
pub enum Holding {
    Nothing,
    Roster,
    Plan,
    Proposal,
}

/// What a desk holds, by its number.
pub(crate) fn holding(number: u8) -> Holding {
    match number {
        0 => Holding::Nothing,
        1 => Holding::Roster,
        2 => Holding::Plan,
        3 => Holding::Proposal,
        _ => unreachable!("0 to 3"),
    }
}

/// The votes of a proposal and the held plan.
#[derive(Clone, Copy, Debug, PartialEq, Eq)]
pub struct ProposalVotes {
    /// The proposal's vote against the held plan.
    pub proposal: i16,
    /// The held plan's vote against the proposal.
    pub held: i16,
}

/// The least vote of one plan against another over ranges of ranks.
#[derive(Clone, Copy, Debug, PartialEq, Eq)]
pub struct Least {
    pub vote: i16,
    /// How many ranks were written, one for each range.
    pub ranks: usize,
}

/// What the finder answers, and a change of the roster with it, with the number
/// of steps that are in the diary.
#[derive(Clone, Copy, Debug, PartialEq, Eq)]
pub enum Found {
    /// The strongly popular plan is in the plan's buffer: so many bytes.
    Plan { steps: usize, plan: usize },
    /// There is none: so many pairs remain, in the buffer for them.
    Left { steps: usize, pairs: usize },
    /// There is none: the candidate is in the plan's buffer, its rival in the
    /// rival's, each with so many bytes, and this is the candidate's vote against
    /// it, zero or below.
    Rivalled {
        steps: usize,
        vote: i16,
        plan: usize,
        rival: usize,
    },
}

/// The length that a call wrote.
pub(crate) fn length(outcome: &ffi::Outcome) -> Result<usize, Refusal> {
    refusal::check(outcome.refusal).map(|()| outcome.length)
}

pub(crate) fn verdict(judged: &ffi::Judged) -> Result<Verdict, Refusal> {
    refusal::check(judged.refusal)?;
    let (vote, rival) = (judged.vote, judged.rival_length);
    Ok(match judged.verdict {
        1 => Verdict::Strong,
        2 => Verdict::Popular { vote, rival },
        _ => Verdict::Beaten { vote, rival },
    })
}

pub(crate) fn comparison<'a>(
    compared: &ffi::Compared,
    first: &'a [u8],
    second: &'a [u8],
) -> Comparison<'a> {
    let file = if compared.file == 2 { second } else { first };
    Comparison {
        outcome: refusal::check(compared.refusal).map(|()| Votes {
            first: compared.first_vote,
            second: compared.second_vote,
            winner: match compared.winner {
                1 => Winner::First,
                2 => Winner::Second,
                3 => Winner::Both,
                _ => Winner::Neither,
            },
        }),
        part: &file[compared.from..compared.from + compared.length],
    }
}

pub(crate) fn proposal_votes(proposed: &ffi::Proposed) -> Result<ProposalVotes, Refusal> {
    refusal::check(proposed.refusal).map(|()| ProposalVotes {
        proposal: proposed.proposal_vote,
        held: proposed.held_vote,
    })
}

pub(crate) fn least(least: &ffi::Least) -> Result<Least, Refusal> {
    refusal::check(least.refusal).map(|()| Least {
        vote: least.vote,
        ranks: least.length,
    })
}

/// The numbers of a blocking pair's surveyor and stand, and its shift.
pub(crate) fn blocking(blocker: &ffi::Blocker) -> Result<Option<(u8, u8, u8)>, Refusal> {
    refusal::check(blocker.refusal)?;
    let pair = (blocker.surveyor, blocker.stand, blocker.shift);
    Ok((blocker.surveyor != 0).then_some(pair))
}

pub(crate) fn found(reply: &ffi::DeskFound) -> Result<Found, Refusal> {
    refusal::check(reply.refusal)?;
    let steps = reply.steps;
    Ok(match reply.kind {
        1 => Found::Plan {
            steps,
            plan: reply.plan_length,
        },
        2 => Found::Left {
            steps,
            pairs: reply.left,
        },
        _ => Found::Rivalled {
            steps,
            vote: reply.vote,
            plan: reply.plan_length,
            rival: reply.rival_length,
        },
    })
}
