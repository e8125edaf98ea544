//! The verdict on plans of the longest roster, from bytes to answer: strong,
//! popular and beaten ones of 64 pairs, and plans of 32 pairs that leave room
//! on one side. Those of 64 pairs are held against the peer from outside too.

use std::hint::black_box;

use planner::{Desk, PAIRING_BYTES, PLAN_BYTES};
use reference::fast::{self, verdict::Verdict};
use reference::plan::{self, Plan};
use reference::random::{self, Random, Shape};
use reference::roster::{self, Roster};

use crate::lent::loaded;
use crate::measure::Effort;
use crate::peer;
use crate::table::{Table, PROVED};

/// A plan of a roster, by their files.
pub struct Case {
    pub name: String,
    pub roster: Vec<u8>,
    pub plan: Vec<u8>,
}

impl Case {
    pub fn new(name: impl Into<String>, roster: &Roster, plan: &Plan) -> Case {
        Case {
            name: name.into(),
            roster: roster::write(roster),
            plan: plan::write(roster, plan),
        }
    }

    /// A desk that holds both.
    pub fn desk(&self) -> Desk {
        let mut desk = loaded(&self.roster);
        desk.load_plan(&self.plan).expect("accepted");
        desk
    }

    /// The proved verdict, its rival and the pairings of the vote against it written.
    pub fn judged(desk: &Desk, out: &mut Written) -> &'static str {
        let judged = black_box(desk).judge(&mut out.rival, &mut out.pairing);
        match black_box(judged).expect("a plan is held") {
            planner::Verdict::Strong => "strong",
            planner::Verdict::Popular { .. } => "popular",
            planner::Verdict::Beaten { .. } => "beaten",
        }
    }

    /// The fast reading's verdict, from bytes to answer, the same written.
    pub fn by_reference(&self, out: &mut Written) -> &'static str {
        let instance = fast::roster::read(black_box(&self.roster)).expect("accepted");
        let plan = fast::plan::read(&instance, black_box(&self.plan)).expect("accepted");
        let (rival, verdict) = match fast::verdict::judge(&instance, &plan) {
            Verdict::Strong => return "strong",
            Verdict::Popular(rival) => (rival, "popular"),
            Verdict::Beaten(rival) => (rival, "beaten"),
        };
        fast::plan::write(&instance, &rival.plan, &mut out.rival);
        fast::pairing::write(&instance, &plan, &rival.plan, &mut out.pairing);
        verdict
    }

    /// The verdict, on which all agree, and the times of the proved call and of the
    /// reference.
    pub fn times(&self, effort: Effort) -> (&'static str, Vec<f64>) {
        let (mut ours, mut theirs) = (Written::new(), Written::new());
        let desk = self.desk();
        let verdict = Case::judged(&desk, &mut ours);
        assert_eq!(verdict, self.by_reference(&mut theirs), "{}", self.name);
        let times = effort.both(
            1,
            || {
                Case::judged(&desk, &mut ours);
            },
            || {
                self.by_reference(&mut theirs);
            },
        );
        (verdict, times)
    }
}

/// What a verdict writes.
pub struct Written {
    rival: [u8; PLAN_BYTES],
    pairing: [u8; PAIRING_BYTES],
}

impl Written {
    pub fn new() -> Written {
        Written {
            rival: [0; PLAN_BYTES],
            pairing: [0; PAIRING_BYTES],
        }
    }
}

/// Where the plans are drawn from.
const SEED: u64 = 9;

/// Plans of 64 pairs, which leave no room, each with what the verdict must be.
fn full(random: &mut Random) -> Vec<(Case, &'static str)> {
    let mut cases = Vec::new();
    let mut put = |name: &str, (roster, plan): (Roster, Plan), verdict| {
        let name = format!("64 pairs, {name}");
        cases.push((Case::new(name, &roster, &plan), verdict));
    };
    put("all agree", random::agreed(random, 0), "strong");
    put("long walks", random::chained(random), "strong");
    let ring = random::ringed(&mut Random::new(15));
    put("long walks, closed", ring, "popular");
    let scattered = random::scattered(&mut Random::new(15));
    put("walks closed anywhere", scattered, "popular");
    put("some stands tie", random::agreed(random, 4), "popular");
    for (name, ties, opposed) in [("random", 50, 20), ("random, opposed", 50, 100)] {
        let roster = random::roster(random, &random::longest_shape(ties, opposed));
        let plan = random::plan_of(random, &roster, 64);
        put(name, (roster, plan), "beaten");
    }
    cases
}

/// Plans of 32 pairs that leave a place at every node of one side.
fn with_room(random: &mut Random) -> Vec<Case> {
    let mut cases = Vec::new();
    for (name, ties, opposed) in [("strict", 0, 0), ("random", 50, 20), ("opposed", 50, 100)] {
        for (side, quotas) in [("surveyors", [2..=2, 1..=1]), ("stands", [1..=1, 2..=2])] {
            let longest = random::longest_shape(ties, opposed);
            let roster = random::roster(random, &Shape { quotas, ..longest });
            let plan = random::plan_of(random, &roster, 32);
            let name = format!("32 pairs, {name}, {side} have room");
            cases.push(Case::new(name, &roster, &plan));
        }
    }
    cases
}

pub fn table(effort: Effort) -> Table {
    let mut table = Table::new("verdict");
    let mut random = Random::new(SEED);
    for (case, expected) in full(&mut random) {
        let (verdict, times) = case.times(effort);
        assert_eq!(verdict, expected, "{}", case.name);
        table.put(format!("verdict, {verdict}: {}", case.name), times);
    }
    for case in with_room(&mut random) {
        let (verdict, times) = case.times(effort);
        table.put(format!("verdict, {verdict}: {}", case.name), times);
    }
    table
}

/// The plans without room against the peer: from the bytes, and with its graph built
/// before, each by the quicker of its algorithms.
pub fn against_the_peer(effort: Effort) -> Table {
    const COLUMNS: &[&str] = &[PROVED, "LEMON from bytes, us", "LEMON's solving alone, us"];
    let mut table = Table::of("peer", "verdict", COLUMNS);
    if !peer::THERE {
        let package = peer::PACKAGE;
        table.note(format!(
            "LEMON was not there when the benchmark was built: install {package}."
        ));
        return table;
    }
    peer::keep_memory();
    for (case, verdict) in full(&mut Random::new(SEED)) {
        let mut out = Written::new();
        let desk = case.desk();
        assert_eq!(Case::judged(&desk, &mut out), verdict, "{}", case.name);
        let [one, other] = peer::ALGORITHMS;
        let by = |algorithm| {
            let theirs = peer::verdict(algorithm, black_box(&case.roster), black_box(&case.plan));
            assert_eq!(theirs, verdict, "{}", case.name);
        };
        let [mut first, mut second] =
            peer::ALGORITHMS.map(|algorithm| peer::Graph::new(algorithm, &case.roster, &case.plan));
        let times = effort.in_turn(
            1,
            &mut [
                &mut || {
                    Case::judged(&desk, &mut out);
                },
                &mut || by(one),
                &mut || by(other),
                &mut || assert_eq!(first.solve(), verdict, "{}", case.name),
                &mut || assert_eq!(second.solve(), verdict, "{}", case.name),
            ],
        );
        table.put(
            format!("{verdict}: {}", case.name),
            vec![times[0], times[1].min(times[2]), times[3].min(times[4])],
        );
    }
    table
}

#[cfg(test)]
mod tests {
    use super::*;

    /// Plans without room of rosters of several sizes: agreed ones, with ties and without,
    /// closed walks, random ones.
    fn cases() -> Vec<Case> {
        let mut random = Random::new(18);
        let mut cases = Vec::new();
        for nodes in [2, 4, 6, 10] {
            for tied in 0..=nodes / 2 {
                let (roster, plan) = random::agreed_of(&mut random, nodes, tied);
                cases.push(Case::new(format!("{nodes}, {tied} tied"), &roster, &plan));
            }
            let nodes = nodes as u8;
            let shape = Shape {
                counts: [nodes..=nodes, nodes..=nodes],
                ..random::longest_shape(50, 20)
            };
            for _ in 0..10 {
                let roster = random::roster(&mut random, &shape);
                let plan = random::plan_of(&mut random, &roster, 2 * usize::from(nodes));
                cases.push(Case::new(format!("{nodes}, random"), &roster, &plan));
            }
        }
        cases.extend(full(&mut random).into_iter().map(|(case, _)| case));
        cases
    }

    #[test]
    fn the_peer_gives_the_same_verdicts() {
        if !peer::THERE {
            let package = peer::PACKAGE;
            println!("\nskipped: the_peer_gives_the_same_verdicts: install {package}");
            return;
        }
        let mut met = std::collections::BTreeMap::new();
        for case in cases() {
            let verdict = case.by_reference(&mut Written::new());
            for by in peer::ALGORITHMS {
                let theirs = peer::verdict(by, &case.roster, &case.plan);
                assert_eq!(theirs, verdict, "{}: {:?}", case.name, case.roster);
                let mut graph = peer::Graph::new(by, &case.roster, &case.plan);
                assert_eq!([graph.solve(), graph.solve()], [verdict; 2]);
            }
            *met.entry(verdict).or_insert(0) += 1;
        }
        println!("verdicts met: {met:?}");
        assert!(met.len() == 3 && met.values().all(|&number| number >= 5));
    }
}
