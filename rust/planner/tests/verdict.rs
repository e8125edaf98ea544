//! The proved verdict against the votes of all plans, and its rivals against a
//! recount: every plan of many small rosters, and plans of 64 pairs on rosters
//! of 1,024.

mod calls;
mod common;
mod lent;

use common::{damage, desk_with_plan, junk, plan_front, NUMBERS};
use lent::only_front;
use reference::desk::Judged;
use reference::fast;
use reference::limits::MAX_PLAN_BYTES;
use reference::plan::{self, Plan};
use reference::plans::Verdict;
use reference::random::{self, Random, Shape};
use reference::roster::{self, Roster, Side, SIDES};
use reference::tables::{Contest, Tables};

/// The call under test on a desk with these files, with the reference's verdict
/// and a refusal as its number.
fn verdict(roster: &[u8], plan: &[u8], rival: &mut [u8]) -> Result<(Judged, usize), u8> {
    let pairing = &mut [0; planner::PAIRING_BYTES];
    let answer = desk_with_plan(roster, plan).and_then(|desk| desk.judge(rival, pairing));
    answer.map(calls::judged).map_err(|refusal| refusal.number)
}

/// The exchange that makes a rival of a plan, by what it does to the numbers of
/// pairs at the nodes: docs/THEORY.md's closed walks and walks with their two
/// ends, the first letter for the start and the second for the end.
#[derive(Clone, Copy, Debug, PartialEq, Eq)]
enum Kind {
    Closed,
    LossToLoss,
    LossToGain,
    GainToLoss,
    GainToGain,
    FreePair,
    Other,
}

const KINDS: [Kind; 7] = [
    Kind::Closed,
    Kind::LossToLoss,
    Kind::LossToGain,
    Kind::GainToLoss,
    Kind::GainToGain,
    Kind::FreePair,
    Kind::Other,
];

/// Losses and gains of one side's nodes, each counted as often as it occurs.
fn losses_and_gains(roster: &Roster, side: Side, plan: &Plan, rival: &Plan) -> (usize, usize) {
    let count = |plan: &Plan, number| plan.entries(roster, side, number).len();
    let numbers = (1..).zip(roster.nodes(side)).map(|(number, _)| number);
    numbers.fold((0, 0), |(losses, gains), number: u8| {
        let (own, other) = (count(plan, number), count(rival, number));
        (
            losses + own.saturating_sub(other),
            gains + other.saturating_sub(own),
        )
    })
}

fn kind(roster: &Roster, plan: &Plan, rival: &Plan) -> Kind {
    let gone = plan
        .indices()
        .iter()
        .filter(|&&pair| !rival.holds(pair))
        .count();
    let come = rival
        .indices()
        .iter()
        .filter(|&&pair| !plan.holds(pair))
        .count();
    let [surveyors, stands] = SIDES.map(|side| losses_and_gains(roster, side, plan, rival));
    match (surveyors, stands) {
        ((0, 1), (0, 1)) if gone == 0 && come == 1 => Kind::FreePair,
        ((0, 0), (0, 0)) => Kind::Closed,
        ((1, 0), (1, 0)) => Kind::LossToLoss,
        ((1, 1), (0, 0)) => Kind::LossToGain,
        ((0, 0), (1, 1)) => Kind::GainToLoss,
        ((0, 1), (0, 1)) => Kind::GainToGain,
        _ => Kind::Other,
    }
}

/// How often which verdict, and which kind of rival with a vote of zero and
/// below.
#[derive(Default)]
struct Tally {
    rosters: usize,
    strong: usize,
    popular: [usize; KINDS.len()],
    beaten: [usize; KINDS.len()],
}

impl Tally {
    fn print(&self) {
        println!("{} rosters, {} strong plans", self.rosters, self.strong);
        println!("kinds of rivals: {KINDS:?}");
        println!("  with vote 0: {:?}", self.popular);
        println!("  with a vote below: {:?}", self.beaten);
    }

    /// Calls the verdict on one plan. `votes` recounts a vote by the reference,
    /// `expected` is -1 for beaten, 0 for popular, 1 for strong.
    fn check(
        &mut self,
        random: &mut Random,
        (roster, bytes): (&Roster, &[u8]),
        plan: &Plan,
        expected: i16,
        votes: impl Fn(&Plan) -> i16,
    ) {
        let before = junk(random, MAX_PLAN_BYTES + random.clone().below(3));
        let mut buffer = before.clone();
        let file = plan::write(roster, plan);
        let (judged, length) = verdict(bytes, &file, &mut buffer).expect("accepted");
        let (sign, vote) = match judged {
            Judged::Strong => (1, None),
            Judged::Popular(vote) => (0, Some(vote)),
            Judged::Beaten(vote) => (-1, Some(vote)),
        };
        assert_eq!(sign, expected, "{bytes:?} {file:?}");
        let Some(vote) = vote else {
            self.strong += 1;
            return assert_eq!((length, buffer), (0, before));
        };
        assert_eq!(vote.signum(), sign, "{bytes:?} {file:?}");
        let written = plan_front(&buffer).to_vec();
        assert_eq!(length, written.len(), "{bytes:?} {file:?}");
        only_front(&before, &buffer, &written);
        let rival = plan::read(roster, &written)
            .unwrap_or_else(|refusal| panic!("{refusal:?} {bytes:?} {file:?} {written:?}"));
        assert_ne!(rival, *plan, "{bytes:?} {file:?}");
        assert_eq!(votes(&rival), vote, "{bytes:?} {file:?} {written:?}");
        let place = kind(roster, plan, &rival) as usize;
        match sign {
            0 => self.popular[place] += 1,
            _ => self.beaten[place] += 1,
        }
    }

    /// All plans of one roster.
    fn check_all(&mut self, random: &mut Random, tables: &mut Tables, roster: &Roster) {
        self.rosters += 1;
        let bytes = roster::write(roster);
        let contest: Contest = tables.contest(roster);
        for (place, plan) in contest.plans().iter().enumerate() {
            let expected = match contest.verdict(place) {
                Verdict::Strong => 1,
                Verdict::Popular(_) => 0,
                Verdict::Beaten(_) => -1,
            };
            self.check(random, (roster, &bytes), plan, expected, |rival| {
                let rival = contest.plans().iter().position(|plan| plan == rival);
                contest.vote(place, rival.expect("a plan within the quotas"))
            });
        }
    }
}

#[test]
fn all_plans_of_small_rosters() {
    let mut random = Random::new(71);
    let mut tables = Tables::default();
    let mut tally = Tally::default();
    let mut parallel = 0;
    let shape = |counts, quotas, shifts, [pairs, ties, opposed]: [u8; 3]| Shape {
        counts,
        quotas,
        shifts,
        pairs,
        ties,
        opposed,
    };
    let shapes = [
        (
            40_000,
            shape([1..=3, 1..=3], [0..=2, 0..=2], 1, [60, 60, 50]),
        ),
        (
            15_000,
            shape([2..=3, 2..=3], [1..=1, 1..=2], 1, [80, 60, 80]),
        ),
        (
            10_000,
            shape([2..=4, 2..=4], [1..=2, 1..=1], 1, [55, 60, 80]),
        ),
        (
            2_000,
            shape([2..=3, 2..=3], [1..=3, 1..=3], 1, [90, 40, 50]),
        ),
        (
            30_000,
            shape([1..=2, 1..=2], [0..=2, 0..=2], 3, [50, 60, 50]),
        ),
        (
            10_000,
            shape([2..=3, 2..=3], [1..=1, 1..=2], 2, [50, 60, 80]),
        ),
        (
            4_000,
            shape([2..=2, 2..=2], [1..=3, 1..=3], 3, [50, 50, 50]),
        ),
    ];
    for (rosters, shape) in shapes {
        for _ in 0..rosters {
            let roster = random::roster(&mut random, &shape);
            parallel += usize::from(roster.has_parallel_pairs());
            tally.check_all(&mut random, &mut tables, &roster);
        }
    }
    tally.print();
    println!("{parallel} rosters have parallel pairs");
    assert!(tally.rosters >= 100_000);
    assert!(parallel >= 20_000);
    assert!(tally.strong > 10_000);
    for (place, kind) in KINDS.iter().enumerate().take(KINDS.len() - 1) {
        let (zero, below) = (tally.popular[place], tally.beaten[place]);
        assert!(zero + below > 500, "{kind:?} is too rare");
    }
}

#[test]
fn the_cases_of_the_paper() {
    let mut random = Random::new(72);
    let p4: &[u8] = &[
        2, 1, 1, 1, 1, 2, 0, 1, 1, 1, 1, 1, 1, 2, 0, 0, 2, 1, 1, 2, 1,
    ];
    let p6: &[u8] = &[
        2, 1, 1, 2, 1, 1, 4, 0, 2, 1, 1, 2, 1, 2, 2, 1, 1, 1, 4, 0, 2, 0, 2, 1, 1, 1, 2, 0, 1, 1,
        2, 1,
    ];
    let p10: &[u8] = &[
        2, 1, 1, 2, 1, 2, 4, 0, 2, 1, 1, 2, 1, 2, 1, 1, 2, 1, 4, 0, 0, 2, 1, 1, 2, 1, 2, 0, 1, 1,
        2, 1,
    ];
    let mut rival = [7; MAX_PLAN_BYTES];
    assert_eq!(
        verdict(p4, &[1, 1, 1, 1], &mut rival),
        Ok((Judged::Popular(0), 4))
    );
    assert_eq!(rival[..5], [1, 2, 1, 1, 7]);
    rival[..4].fill(7);
    assert_eq!(
        verdict(p10, &[2, 1, 2, 1, 2, 1, 1], &mut rival),
        Ok((Judged::Strong, 0))
    );
    assert_eq!(rival, [7; MAX_PLAN_BYTES]);
    for plan in [&[2, 1, 1, 1, 2, 2, 1], &[2, 1, 2, 1, 2, 1, 1]] {
        assert!(matches!(
            verdict(p6, plan, &mut rival),
            Ok((Judged::Popular(0), _))
        ));
    }
    // one surveyor and one stand, who prefer different shifts
    let shifts: &[u8] = &[1, 1, 1, 1, 2, 0, 2, 1, 3, 1, 1, 2, 0, 2, 0, 1, 1, 1, 3];
    rival.fill(7);
    assert_eq!(
        verdict(shifts, &[1, 1, 1, 1], &mut rival),
        Ok((Judged::Popular(0), 4))
    );
    assert_eq!(rival[..5], [1, 1, 1, 3, 7]);
    let mut tables = Tables::default();
    let mut tally = Tally::default();
    for file in [p4, p6, p10, shifts] {
        let roster = roster::read(file).expect("accepted");
        tally.check_all(&mut random, &mut tables, &roster);
    }
    assert_eq!((tally.rosters, tally.strong), (4, 1));
}

/// The fast reading's plan.
fn chosen(instance: &fast::roster::Instance, roster: &Roster, plan: &Plan) -> fast::plan::Chosen {
    fast::plan::read(instance, &plan::write(roster, plan)).expect("accepted")
}

/// Holds the verdict on a plan against the fast reading's.
fn check_large(random: &mut Random, tally: &mut Tally, roster: &Roster, plan: &Plan) {
    let bytes = roster::write(roster);
    let instance = fast::roster::read(&bytes).expect("accepted");
    let own = chosen(&instance, roster, plan);
    let expected = match fast::verdict::judge(&instance, &own) {
        fast::verdict::Verdict::Strong => 1,
        fast::verdict::Verdict::Popular(_) => 0,
        fast::verdict::Verdict::Beaten(_) => -1,
    };
    tally.check(random, (roster, &bytes), plan, expected, |rival| {
        let rival = chosen(&instance, roster, rival);
        fast::vote::vote(&instance, &own, &rival)
    });
}

#[test]
fn full_plans_of_the_longest_rosters() {
    let mut random = Random::new(73);
    let mut tally = Tally::default();
    for turn in 0..400 {
        let [ties, opposed] = [[0, 0], [50, 20], [100, 50], [60, 100]][turn % 4];
        let roster = random::roster(&mut random, &random::longest_shape(ties, opposed));
        assert_eq!(roster.pairs().len(), 1_024);
        let plan = random::plan_of(&mut random, &roster, 64);
        check_large(&mut random, &mut tally, &roster, &plan);
        let (roster, plan) = match turn % 4 {
            0 => random::chained(&mut random),
            tied => random::agreed(&mut random, 2 * (tied - 1)),
        };
        assert_eq!(plan.indices().len(), 64);
        check_large(&mut random, &mut tally, &roster, &plan);
        tally.rosters += 2;
    }
    tally.print();
    assert!(tally.strong >= 100);
    assert!(tally.popular.iter().sum::<usize>() >= 100);
    assert!(tally.beaten.iter().sum::<usize>() >= 200);
}

#[test]
fn a_beaten_plan_gives_way_to_its_rival() {
    let mut random = Random::new(76);
    let mut tally = Tally::default();
    for _ in 0..8 {
        let roster = random::roster(&mut random, &random::longest_shape(50, 20));
        let mut plan = random::plan_of(&mut random, &roster, 64);
        for _ in 0..300 {
            check_large(&mut random, &mut tally, &roster, &plan);
            let mut rival = [0; MAX_PLAN_BYTES];
            let file = plan::write(&roster, &plan);
            let judged = verdict(&roster::write(&roster), &file, &mut rival);
            let Ok((Judged::Beaten(_), length)) = judged else {
                break;
            };
            plan = plan::read(&roster, &rival[..length]).expect("a plan");
        }
        tally.rosters += 1;
    }
    tally.print();
    assert!(tally.beaten.iter().sum::<usize>() >= 200);
}

#[test]
fn plans_with_room_up_to_the_limits() {
    let mut random = Random::new(75);
    let mut tally = Tally::default();
    for _ in 0..15_000 {
        let shape = random::any_shape(&mut random);
        let roster = random::roster(&mut random, &shape);
        let plan = random::maximal_plan(&mut random, &roster);
        check_large(&mut random, &mut tally, &roster, &plan);
        let instance = fast::roster::read(&roster::write(&roster)).expect("accepted");
        if let fast::finder::Ending::Plan(plan) = fast::finder::find(&instance).ending {
            let pairs = plan.as_slice().iter().map(|&pair| usize::from(pair));
            check_large(&mut random, &mut tally, &roster, &pairs.collect());
        }
        tally.rosters += 1;
    }
    tally.print();
    assert!(tally.strong >= 1_000);
    for (place, kind) in KINDS.iter().enumerate().take(5) {
        let (zero, below) = (tally.popular[place], tally.beaten[place]);
        assert!(zero + below >= 10, "{kind:?} is too rare");
    }
}

#[test]
fn refusals() {
    let mut random = Random::new(74);
    let mut met = [0usize; NUMBERS];
    for turn in 0..40_000 {
        let shifts = random.within(&(1..=3));
        let shape = Shape {
            counts: [1..=4, 1..=4],
            quotas: [0..=3, 0..=3],
            shifts,
            pairs: 70 / shifts,
            ties: 50,
            opposed: 30,
        };
        let roster = random::roster(&mut random, &shape);
        let mut bytes = roster::write(&roster);
        let mut file = plan::write(&roster, &random::plan(&mut random, &roster, 90));
        if turn % 2 == 0 {
            damage(&mut random, &mut file);
        }
        if turn % 3 == 0 {
            damage(&mut random, &mut bytes);
        }
        let short = turn % 7 == 0;
        let before = junk(&mut random, MAX_PLAN_BYTES - usize::from(short));
        let mut rival = before.clone();
        let answer = verdict(&bytes, &file, &mut rival);
        let read = roster::read(&bytes).and_then(|roster| plan::read(&roster, &file));
        let expected = match read {
            Err(refusal) => refusal.number(),
            Ok(_) if short => 15,
            Ok(_) => 0,
        };
        assert_eq!(answer.err().unwrap_or(0), expected, "{bytes:?} {file:?}");
        if expected != 0 {
            assert_eq!(rival, before);
        }
        met[usize::from(expected)] += 1;
    }
    println!("accepted and refusals met: {met:?}");
    for number in [0, 1, 2, 3, 4, 5, 7, 8, 9, 10, 11, 12, 15, 18] {
        assert!(met[number] > 20, "refusal {number} is too rare");
    }
}
