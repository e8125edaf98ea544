//! The desk: nothing loaded, a roster, or a roster and a plan, with a proposal
//! beside it or without. Every call takes the desk by value and hands it back
//! with its answer. The verdict and the pairings are the fast reading's, so that
//! every roster is answered at once; the tests hold them against the votes of all
//! plans and against all pairings.

use crate::blocking::first_blocking_pair;
use crate::changes;
use crate::compare::{self, compare, Comparison, Part, Votes};
use crate::days;
use crate::finder::{find_large, verdict_large, Answer, Why};
use crate::lent::{enough, put};
use crate::limits::{
    MAX_DAY_BYTES, MAX_ENTRIES, MAX_PAIRING_BYTES, MAX_PLAN_BYTES, MAX_RANK_BYTES,
    MAX_ROSTER_BYTES, PAIR_FIELD,
};
use crate::pairings;
use crate::plan::{self, Plan};
use crate::plans::Verdict;
use crate::ranges;
use crate::reduction::{Fate, Step};
use crate::refusal::Refusal;
use crate::roster::{self, Pair, Roster};
use crate::seasons;

/// Records that a diary needs, and bytes that a buffer for left pairs needs.
pub const DIARY_RECORDS: usize = MAX_ENTRIES;
pub const LEFT_BYTES: usize = PAIR_FIELD * MAX_ENTRIES;

/// What is loaded.
#[derive(Clone, Debug, Default, PartialEq, Eq)]
pub enum Desk {
    #[default]
    Nothing,
    Roster(Roster),
    RosterAndPlan(Roster, Plan),
    WithProposal {
        roster: Roster,
        held: Plan,
        proposal: Plan,
    },
}

/// A record of the diary. Fate 1 is fix, 2 is strike.
#[derive(Clone, Copy, Debug, PartialEq, Eq)]
pub struct Record {
    pub fate: u8,
    pub surveyor: u8,
    pub stand: u8,
    pub shift: u8,
    pub rule: u8,
}

/// The buffers that are lent to the finder. Left pairs take three bytes each,
/// without a count; a plan or a candidate goes to `plan`.
pub struct Lent<'a> {
    pub diary: &'a mut [Record],
    pub left: &'a mut [u8],
    pub plan: &'a mut [u8],
    pub rival: &'a mut [u8],
}

impl Lent<'_> {
    fn check(&self) -> Result<(), Refusal> {
        enough(self.diary.len(), DIARY_RECORDS)?;
        enough(self.left.len(), LEFT_BYTES)?;
        enough(self.plan.len(), MAX_PLAN_BYTES)?;
        enough(self.rival.len(), MAX_PLAN_BYTES)
    }
}

/// The buffers that are lent for the pairings of both votes of two plans: of the
/// first against the second, and back.
pub struct Facing<'a> {
    pub forward: &'a mut [u8],
    pub back: &'a mut [u8],
}

impl Facing<'_> {
    fn check(&self) -> Result<(), Refusal> {
        enough(self.forward.len(), MAX_PAIRING_BYTES)?;
        enough(self.back.len(), MAX_PAIRING_BYTES)
    }

    fn put(self, roster: &Roster, first: &Plan, second: &Plan) {
        put(self.forward, &pairings::bytes_large(roster, first, second));
        put(self.back, &pairings::bytes_large(roster, second, first));
    }
}

/// The finder's answer, with the number of steps in each case.
#[derive(Clone, Copy, Debug, PartialEq, Eq)]
pub enum Found {
    Plan { steps: usize },
    None { steps: usize, kind: NoneKind },
}

/// Why there is none: pairs are left, as many as told, or the candidate has a
/// rival, with this vote against it.
#[derive(Clone, Copy, Debug, PartialEq, Eq)]
pub enum NoneKind {
    Left(usize),
    Rivalled(i16),
}

/// The verdict on the held plan, with its vote against the rival written.
#[derive(Clone, Copy, Debug, PartialEq, Eq)]
pub enum Judged {
    Strong,
    Popular(i16),
    Beaten(i16),
}

impl Desk {
    /// The held roster, which most calls need.
    pub fn roster(&self) -> Result<&Roster, Refusal> {
        match self {
            Desk::Nothing => Err(Refusal::NoRosterLoaded),
            Desk::Roster(roster)
            | Desk::RosterAndPlan(roster, _)
            | Desk::WithProposal { roster, .. } => Ok(roster),
        }
    }

    /// The held plan with its roster.
    pub fn roster_and_plan(&self) -> Result<(&Roster, &Plan), Refusal> {
        match self {
            Desk::Nothing => Err(Refusal::NoRosterLoaded),
            Desk::Roster(_) => Err(Refusal::NoPlanHeld),
            Desk::RosterAndPlan(roster, held) | Desk::WithProposal { roster, held, .. } => {
                Ok((roster, held))
            }
        }
    }

    /// The open proposal.
    pub fn proposal(&self) -> Result<&Plan, Refusal> {
        self.roster_and_plan()?;
        match self {
            Desk::WithProposal { proposal, .. } => Ok(proposal),
            _ => Err(Refusal::NoProposalOpen),
        }
    }

    /// Loads a roster, which drops the plan and closes a proposal. A refused one
    /// leaves the desk alike.
    pub fn load_roster(self, file: &[u8]) -> (Desk, Result<(), Refusal>) {
        match roster::read(file) {
            Ok(roster) => (Desk::Roster(roster), Ok(())),
            Err(refusal) => (self, Err(refusal)),
        }
    }

    /// Loads a plan of the held roster in the place of a held one, and closes a
    /// proposal.
    pub fn load_plan(self, file: &[u8]) -> (Desk, Result<(), Refusal>) {
        let read = self.roster().and_then(|roster| plan::read(roster, file));
        match (read, self) {
            (
                Ok(plan),
                Desk::Roster(roster)
                | Desk::RosterAndPlan(roster, _)
                | Desk::WithProposal { roster, .. },
            ) => (Desk::RosterAndPlan(roster, plan), Ok(())),
            (read, desk) => (desk, read.map(|_| ())),
        }
    }

    /// Proposes a plan of the held roster beside the held plan, in the place of
    /// an open proposal. Answers the votes of the two, the proposal first, and
    /// writes their pairings.
    pub fn propose(self, file: &[u8], facing: Facing) -> (Desk, Result<Votes, Refusal>) {
        let read = self.roster_and_plan().and_then(|(roster, held)| {
            facing.check()?;
            let proposal = plan::read(roster, file)?;
            let votes = Votes::of(roster, &proposal, held);
            facing.put(roster, &proposal, held);
            Ok((proposal, votes))
        });
        match (read, self) {
            (
                Ok((proposal, votes)),
                Desk::RosterAndPlan(roster, held) | Desk::WithProposal { roster, held, .. },
            ) => {
                let desk = Desk::WithProposal {
                    roster,
                    held,
                    proposal,
                };
                (desk, Ok(votes))
            }
            (read, desk) => (desk, read.map(|(_, votes)| votes)),
        }
    }

    /// Makes the open proposal the held plan, which closes it.
    pub fn commit(self) -> (Desk, Result<(), Refusal>) {
        match self {
            Desk::WithProposal {
                roster, proposal, ..
            } => (Desk::RosterAndPlan(roster, proposal), Ok(())),
            desk => {
                let refused = desk.proposal().map(|_| ());
                (desk, refused)
            }
        }
    }

    /// Writes the held roster and tells its length.
    pub fn write_roster(self, out: &mut [u8]) -> (Desk, Result<usize, Refusal>) {
        let answer = self.roster().and_then(|roster| {
            enough(out.len(), MAX_ROSTER_BYTES)?;
            Ok(put(out, &roster::write(roster)))
        });
        (self, answer)
    }

    /// Writes the held plan and tells its length.
    pub fn write_plan(self, out: &mut [u8]) -> (Desk, Result<usize, Refusal>) {
        let answer = self.roster_and_plan().and_then(|(roster, held)| {
            enough(out.len(), MAX_PLAN_BYTES)?;
            Ok(put(out, &plan::write(roster, held)))
        });
        (self, answer)
    }

    /// Writes the open proposal and tells its length.
    pub fn write_proposal(self, out: &mut [u8]) -> (Desk, Result<usize, Refusal>) {
        let answer = self.proposal().and_then(|proposal| {
            enough(out.len(), MAX_PLAN_BYTES)?;
            Ok(put(out, &plan::write(self.roster()?, proposal)))
        });
        (self, answer)
    }

    /// How much is held: 0 nothing, 1 a roster, 2 a plan with it, 3 a proposal
    /// beside both.
    pub fn holds(&self) -> u8 {
        match self {
            Desk::Nothing => 0,
            Desk::Roster(_) => 1,
            Desk::RosterAndPlan(..) => 2,
            Desk::WithProposal { .. } => 3,
        }
    }

    /// Writes a day for each entry of the held plan and tells their number.
    pub fn spread(self, out: &mut [u8]) -> (Desk, Result<usize, Refusal>) {
        let answer = self.roster_and_plan().and_then(|(roster, held)| {
            enough(out.len(), MAX_DAY_BYTES)?;
            Ok(put(out, &days::spread(roster, held)))
        });
        (self, answer)
    }

    /// Writes the new file of an old plan of the held roster and tells its length.
    /// No plan needs to be held, and none is after it that was not before.
    pub fn plan_to_new(self, file: &[u8], out: &mut [u8]) -> (Desk, Result<usize, Refusal>) {
        let held = self.roster();
        let answer = held.and_then(|roster| seasons::plan_to_new(roster, file, out));
        (self, answer)
    }

    /// Writes the old file of a new plan of the held roster and tells its length.
    pub fn plan_to_old(self, file: &[u8], out: &mut [u8]) -> (Desk, Result<usize, Refusal>) {
        let held = self.roster();
        let answer = held.and_then(|roster| seasons::plan_to_old(roster, file, out));
        (self, answer)
    }

    /// Finds the strongly popular plan of the held roster.
    pub fn find(self, lent: Lent) -> (Desk, Result<Found, Refusal>) {
        let answer = self.roster().and_then(|roster| {
            lent.check()?;
            Ok(put_answer(roster, lent, &find_large(roster)))
        });
        (self, answer)
    }

    /// A surveyor joins the held roster, with a quota and one stand list in a
    /// file's bytes. The held plan is kept. Answers and writes what the finder
    /// does on the changed roster.
    pub fn join(self, quota: u8, list: &[u8], lent: Lent) -> (Desk, Result<Found, Refusal>) {
        self.change(lent, |roster| changes::join(roster, quota, list))
    }

    /// A surveyor leaves the held roster and keeps the number. The held plan
    /// loses the leaver's pairs. Answers and writes what the finder does on the
    /// changed roster.
    pub fn leave(self, number: u8, lent: Lent) -> (Desk, Result<Found, Refusal>) {
        self.change(lent, |roster| changes::leave(roster, number))
    }

    /// A change of the held roster, then the finder afresh. A refused change
    /// leaves desk and buffers alike.
    fn change(
        self,
        lent: Lent,
        changed: impl FnOnce(&Roster) -> Result<Roster, Refusal>,
    ) -> (Desk, Result<Found, Refusal>) {
        let changed = self.roster().and_then(|roster| {
            lent.check()?;
            changed(roster)
        });
        match changed {
            Ok(roster) => self.with_roster(roster).find(lent),
            Err(refusal) => (self, Err(refusal)),
        }
    }

    /// The desk with the changed roster in the place of the held one, and what
    /// is then left of the held plan. A proposal is closed, unless nothing has
    /// changed: a surveyor who had left has left again.
    pub fn with_roster(self, after: Roster) -> Desk {
        match self {
            Desk::WithProposal { ref roster, .. } if *roster == after => self,
            Desk::RosterAndPlan(before, held)
            | Desk::WithProposal {
                roster: before,
                held,
                ..
            } => {
                let held = changes::carried(&before, &after, &held);
                Desk::RosterAndPlan(after, held)
            }
            Desk::Nothing | Desk::Roster(_) => Desk::Roster(after),
        }
    }

    /// The verdict on the held plan; a rival is written, and the pairings of the
    /// vote against it.
    pub fn judge(self, rival: &mut [u8], pairing: &mut [u8]) -> (Desk, Result<Judged, Refusal>) {
        let answer = self.roster_and_plan().and_then(|(roster, held)| {
            enough(rival.len(), MAX_PLAN_BYTES)?;
            enough(pairing.len(), MAX_PAIRING_BYTES)?;
            let mut named = |found: &Plan| {
                put(rival, &plan::write(roster, found));
                put(pairing, &pairings::bytes_large(roster, held, found));
            };
            Ok(match verdict_large(roster, held) {
                Verdict::Strong => Judged::Strong,
                Verdict::Popular(found) => {
                    named(&found.plan);
                    Judged::Popular(found.vote)
                }
                Verdict::Beaten(found) => {
                    named(&found.plan);
                    Judged::Beaten(found.vote)
                }
            })
        });
        (self, answer)
    }

    /// Compares two plan files, judged against the held roster, and writes the
    /// pairings of both votes.
    pub fn compare(self, first: &[u8], second: &[u8], facing: Facing) -> (Desk, Comparison) {
        let held = self.roster().and_then(|roster| {
            facing.check()?;
            Ok(roster)
        });
        let answer = match held {
            Ok(roster) => {
                if let Ok([first, second]) = compare::plans(roster, first, second) {
                    facing.put(roster, &first, &second);
                }
                compare(roster, first, second)
            }
            Err(refusal) => Comparison {
                outcome: Err(refusal),
                part: Part::empty(),
            },
        };
        (self, answer)
    }

    /// The least vote of one plan file against another over ranges of ranks, judged
    /// against the held roster. Writes ranks that reach it, and tells their number.
    pub fn least(
        self,
        first: &[u8],
        second: &[u8],
        ranges: &[u8],
        out: &mut [u8],
    ) -> (Desk, Result<(i16, usize), Refusal>) {
        let answer = self.roster().and_then(|roster| {
            enough(out.len(), MAX_RANK_BYTES)?;
            let (vote, ranks) = ranges::least(roster, first, second, ranges)?;
            Ok((vote, put(out, &ranks)))
        });
        (self, answer)
    }

    /// The first blocking pair of the held plan.
    pub fn blocking(self) -> (Desk, Result<Option<Pair>, Refusal>) {
        let answer = self
            .roster_and_plan()
            .map(|(roster, held)| first_blocking_pair(roster, held));
        (self, answer)
    }
}

fn put_answer(roster: &Roster, lent: Lent, answer: &Answer) -> Found {
    let (Answer::Plan { diary, .. } | Answer::None { diary, .. }) = answer;
    let steps = diary.len();
    for (place, step) in lent.diary.iter_mut().zip(diary) {
        *place = record(roster, step);
    }
    match answer {
        Answer::Plan { plan, .. } => {
            put(lent.plan, &plan::write(roster, plan));
            Found::Plan { steps }
        }
        Answer::None { why, .. } => {
            let kind = put_why(roster, lent, why);
            Found::None { steps, kind }
        }
    }
}

fn put_why(roster: &Roster, lent: Lent, why: &Why) -> NoneKind {
    match why {
        Why::Left(left) => {
            let pairs = left.iter().map(|&pair| roster.pairs()[pair]);
            let bytes: Vec<u8> = pairs.flat_map(Pair::bytes).collect();
            put(lent.left, &bytes);
            NoneKind::Left(left.len())
        }
        Why::Rivalled {
            candidate,
            rival,
            vote,
        } => {
            put(lent.plan, &plan::write(roster, candidate));
            put(lent.rival, &plan::write(roster, rival));
            NoneKind::Rivalled(*vote)
        }
    }
}

/// A step as its record.
pub fn record(roster: &Roster, step: &Step) -> Record {
    let pair = roster.pairs()[step.pair];
    Record {
        fate: match step.fate {
            Fate::Fix => 1,
            Fate::Strike => 2,
        },
        surveyor: pair.surveyor,
        stand: pair.stand,
        shift: pair.shift,
        rule: step.rule,
    }
}
