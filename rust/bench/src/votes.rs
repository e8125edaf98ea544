//! Votes with their pairings: two plans of 64 pairs where eight nodes of one side
//! have quota 8, a comparison from bytes to answer, and one of the plans proposed
//! beside the other and committed. With eight nodes of quota 8 on both sides at once there
//! is only one plan of 64 pairs, so there are two rosters, one for each side.

use std::hint::black_box;

use planner::{Desk, PAIRING_BYTES};
use reference::fast;
use reference::fast::plan::Chosen;
use reference::fast::roster::Instance;
use reference::plan;
use reference::random::{self, Random};
use reference::roster::{self, Roster, Side};

use crate::lent::loaded;
use crate::measure::Effort;
use crate::table::Table;

/// Two buffers for pairings.
type Pairings = [[u8; PAIRING_BYTES]; 2];

/// Eight nodes of quota 8 on one side, 32 of quota 2 on the other, over three
/// shifts; the eight have full lists.
fn wide(random: &mut Random, full: Side) -> Roster {
    let mut shape = random::longest_shape(50, 20);
    shape.counts[full as usize] = 8..=8;
    shape.quotas[full as usize] = 8..=8;
    random::roster(random, &shape)
}

/// A plan of 64 pairs, as its file.
fn largest(random: &mut Random, roster: &Roster) -> Vec<u8> {
    plan::write(roster, &random::plan_of(random, roster, 64))
}

pub fn table(effort: Effort) -> Table {
    let mut table = Table::new("votes");
    let mut alone = Vec::new();
    for (full, name) in [(Side::Stands, "stands"), (Side::Surveyors, "surveyors")] {
        let case = Case::new(full);
        alone.push(case.comparison(effort, &mut table, name));
        case.proposal(effort, &mut table, name);
    }
    let told = |side: usize| {
        let times: Vec<String> = alone
            .iter()
            .map(|times: &[f64; 2]| format!("{:.2}", times[side]))
            .collect();
        times.join(" and ")
    };
    table.note(format!(
        "One vote with its pairings, a difference of times: {} microseconds (stands, surveyors); the reference's, by itself: {}.",
        told(0),
        told(1)
    ));
    table
}

/// A roster's file and two plans'.
struct Case {
    file: Vec<u8>,
    first: Vec<u8>,
    second: Vec<u8>,
}

impl Case {
    fn new(full: Side) -> Case {
        let mut random = Random::new(8);
        let roster = wide(&mut random, full);
        let [first, second] = [(); 2].map(|()| largest(&mut random, &roster));
        Case {
            file: roster::write(&roster),
            first,
            second,
        }
    }

    /// The roster and both plans, read from their files by the reference.
    fn read(&self) -> (Instance, [Chosen; 2]) {
        let instance = fast::roster::read(black_box(&self.file)).expect("accepted");
        let plans = [&self.first, &self.second]
            .map(|plan| fast::plan::read(&instance, black_box(plan)).expect("accepted"));
        (instance, plans)
    }

    /// The reference's two votes, from bytes, their pairings written.
    fn votes(&self, [forward, back]: &mut Pairings) -> [i16; 2] {
        let (instance, [first, second]) = self.read();
        [
            voted(&instance, [&first, &second], forward),
            voted(&instance, [&second, &first], back),
        ]
    }

    /// The row of a comparison, and the time of one vote with its pairings alone. The
    /// proved side exports none: a comparison whose first file is refused at once reads
    /// the roster alone, and one whose second file is reads a plan more.
    fn comparison(&self, effort: Effort, table: &mut Table, name: &str) -> [f64; 2] {
        let desk = loaded(&self.file);
        let [mut ours, mut refused, mut theirs] = [[[0; PAIRING_BYTES]; 2]; 3];
        assert_eq!(
            compared(&desk, &self.first, &self.second, &mut ours),
            Some(self.votes(&mut theirs))
        );
        assert_eq!(ours, theirs);
        let [roster_alone, one_plan] = [[&[], &self.second[..]], [&self.first[..], &[]]];
        let mut refused = |[first, second]: [&[u8]; 2]| {
            effort.time(200, || {
                black_box(compared(black_box(&desk), first, second, &mut refused));
            })
        };
        let [roster_alone, one_plan] = [refused(roster_alone), refused(one_plan)];
        let times = effort.both(
            200,
            || {
                let (first, second) = (black_box(&self.first), black_box(&self.second));
                black_box(compared(black_box(&desk), first, second, &mut ours));
            },
            || {
                black_box(self.votes(&mut theirs));
            },
        );
        let alone = (times[0] - 2.0 * one_plan + roster_alone) / 2.0;
        table.put(
            format!("comparison of two 64-pair plans with both pairings ({name})"),
            times,
        );
        let (instance, plans) = self.read();
        let reference_alone = effort.time(2_000, || {
            let plans = [&plans[0], &plans[1]].map(black_box);
            black_box(voted(black_box(&instance), plans, &mut theirs[0]));
        });
        [alone, reference_alone]
    }

    /// The second plan is held, and the first proposed and committed.
    fn proposal(&self, effort: Effort, table: &mut Table, name: &str) {
        let mut desk = loaded(&self.file);
        desk.load_plan(&self.second).expect("accepted");
        let [mut ours, mut theirs] = [[[0; PAIRING_BYTES]; 2]; 2];
        let [forward, back] = &mut ours;
        let times = effort.both(
            200,
            || {
                let votes = black_box(&mut desk).propose(black_box(&self.first), forward, back);
                black_box(votes).expect("accepted");
            },
            || {
                black_box(self.votes(&mut theirs));
            },
        );
        assert_eq!(ours, theirs);
        table.put(
            format!("one proposed beside the other, with both pairings ({name})"),
            times,
        );
        table.put(
            format!("the proposal committed ({name})"),
            effort.both(
                200,
                || {
                    let mut asked = black_box(&desk).clone();
                    assert_eq!(black_box(asked.commit()), Ok(()));
                },
                || {
                    black_box(self.read());
                },
            ),
        );
    }
}

/// Both votes of a comparison, its pairings written, if it was accepted.
fn compared(
    desk: &Desk,
    first: &[u8],
    second: &[u8],
    [forward, back]: &mut Pairings,
) -> Option<[i16; 2]> {
    let compared = desk.compare(first, second, forward, back);
    let votes = compared.outcome.ok()?;
    Some([votes.first, votes.second])
}

/// The reference's vote of one plan against another, its pairings written.
fn voted(instance: &Instance, [mine, theirs]: [&Chosen; 2], out: &mut [u8]) -> i16 {
    fast::pairing::write(instance, mine, theirs, out);
    fast::vote::vote(instance, mine, theirs)
}
