//! The finder: the reduction's outcome, with the fixed pairs judged by the
//! votes against all plans.

use crate::fast;
use crate::plan::{self, Plan};
use crate::plans::{verdict, Rival, Verdict};
use crate::reduction::{reduce, Step};
use crate::roster::{self, Roster};

/// The finder's answer, with the diary of all steps in each case.
#[derive(Clone, Debug, PartialEq, Eq)]
pub enum Answer {
    Plan { diary: Vec<Step>, plan: Plan },
    None { diary: Vec<Step>, why: Why },
}

/// Why there is no strongly popular plan.
#[derive(Clone, Debug, PartialEq, Eq)]
pub enum Why {
    /// These pairs remain when no rule acts, ascending.
    Left(Vec<usize>),
    /// The fixed pairs are the only candidate, and a rival ties or beats it.
    Rivalled {
        candidate: Plan,
        rival: Plan,
        vote: i16,
    },
}

/// Finds the strongly popular plan, or says why there is none, with the votes
/// against all plans as the judge.
pub fn find(roster: &Roster) -> Answer {
    find_judged_by(roster, verdict)
}

/// The finder with the verdict by the fast reading, for rosters with more plans
/// than can be tried. Which rival it names may differ.
pub fn find_large(roster: &Roster) -> Answer {
    find_judged_by(roster, verdict_large)
}

/// The verdict by the fast reading.
pub fn verdict_large(roster: &Roster, plan: &Plan) -> Verdict<Plan> {
    let instance = fast::roster::read(&roster::write(roster)).expect("accepted");
    let chosen = fast::plan::read(&instance, &plan::write(roster, plan)).expect("accepted");
    let named = |rival: fast::verdict::Rival| Rival {
        plan: rival
            .plan
            .as_slice()
            .iter()
            .map(|&pair| usize::from(pair))
            .collect(),
        vote: rival.vote,
    };
    match fast::verdict::judge(&instance, &chosen) {
        fast::verdict::Verdict::Strong => Verdict::Strong,
        fast::verdict::Verdict::Popular(rival) => Verdict::Popular(named(rival)),
        fast::verdict::Verdict::Beaten(rival) => Verdict::Beaten(named(rival)),
    }
}

/// The finder with any way to come to the verdict on a plan.
pub fn find_judged_by(
    roster: &Roster,
    verdict: impl Fn(&Roster, &Plan) -> Verdict<Plan>,
) -> Answer {
    let outcome = reduce(roster);
    let diary = outcome.diary;
    if !outcome.left.is_empty() {
        let why = Why::Left(outcome.left);
        return Answer::None { diary, why };
    }
    let candidate = outcome.fixed;
    match verdict(roster, &candidate) {
        Verdict::Strong => Answer::Plan {
            diary,
            plan: candidate,
        },
        Verdict::Popular(rival) | Verdict::Beaten(rival) => {
            let Rival { plan: rival, vote } = rival;
            let why = Why::Rivalled {
                candidate,
                rival,
                vote,
            };
            Answer::None { diary, why }
        }
    }
}
