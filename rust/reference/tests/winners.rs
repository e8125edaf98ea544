//! Who wins a comparison, by brute force: every two plans of every small roster.

use reference::compare::{compare, File, Part, Votes, Winner};
use reference::every::{for_each_roster, SMALL};
use reference::plan::{self, Plan};
use reference::plans::all_plans;
use reference::roster::Roster;
use reference::votes::plan_vote;

/// Sizes with fewer rosters than this are tried.
const FEW: u64 = 50_000;

/// How often which answer came for two plans.
#[derive(Debug, Default)]
struct Tally {
    first: usize,
    second: usize,
    both: usize,
    neither: usize,
    /// Of these with a plan against itself.
    equal: usize,
    /// The answer was another before W-206.
    changed: usize,
}

/// The winner before W-206: the plan whose own vote is above zero.
fn before(votes: Votes) -> Winner {
    match (votes.first_against_second, votes.second_against_first) {
        (1.., _) => Winner::First,
        (_, 1..) => Winner::Second,
        _ => Winner::Neither,
    }
}

impl Tally {
    /// Compares two plans and holds the answer against both votes, counted by
    /// all pairings.
    fn check(&mut self, roster: &Roster, first: &Plan, second: &Plan) {
        let files = [first, second].map(|plan| plan::write(roster, plan));
        let compared = compare(roster, &files[0], &files[1]);
        let votes = compared.outcome.expect("both are accepted");
        let own = plan_vote(roster, first, second);
        let other = plan_vote(roster, second, first);
        assert_eq!(votes.first_against_second, own);
        assert_eq!(votes.second_against_first, other);
        let part = match votes.winner() {
            Winner::First => {
                assert!(other < 0 && own >= 0);
                self.first += 1;
                (File::First, 1..files[0].len())
            }
            Winner::Second => {
                assert!(own < 0 && other >= 0);
                self.second += 1;
                (File::Second, 1..files[1].len())
            }
            Winner::Both => {
                assert!(own < 0 && other < 0);
                self.both += 1;
                (File::First, 0..0)
            }
            Winner::Neither => {
                assert_eq!((own, other), (0, 0));
                self.neither += 1;
                (File::First, 0..0)
            }
        };
        let (file, range) = part;
        assert_eq!(compared.part, Part { file, range });
        self.check_before(votes);
        if first == second {
            assert_eq!(votes.winner(), Winner::Neither);
            self.equal += 1;
        }
    }

    /// Who won before W-206 still wins alone; others may win now.
    fn check_before(&mut self, votes: Votes) {
        let (before, now) = (before(votes), votes.winner());
        if before != now {
            assert_eq!(before, Winner::Neither);
            self.changed += 1;
        }
    }
}

#[test]
fn every_two_plans_of_small_rosters() {
    let mut tally = Tally::default();
    for size in SMALL.iter().filter(|size| size.rosters < FEW) {
        for_each_roster(size, |roster| {
            let plans = all_plans(roster);
            for first in &plans {
                for second in &plans {
                    tally.check(roster, first, second);
                }
            }
        });
    }
    println!("{tally:?}");
    // the same with the two files exchanged
    assert_eq!(tally.first, tally.second);
    assert!(tally.first > 800_000);
    assert!(tally.both > 1_000);
    assert!(tally.neither > tally.equal);
    // both win now, or one whose own vote is zero
    assert!(tally.changed > 10 * tally.both);
}
