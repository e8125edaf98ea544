//! Random sequences of desk calls, on a desk under test and on the reference
//! desk: the same answers, the same bytes in every lent buffer, and after each
//! call the same held, to the byte of the desk's own files. The held plan is also
//! what the calls and their answers tell by themselves, with no desk at all. Of a
//! rival, of a spreading over days and of a choice of ranks only what the papers settle
//! is asked.

use crate::calls::Calls;
use crate::change::Change;
use crate::common::{damage, files_of, junk, BEAT_EACH_OTHER, NUMBERS, P7_TWICE};
use crate::found::{check_rival, same_found};
use crate::lent::{check_days, check_ranks, only_front, ranges_file, Buffers, Pairings, SIZES};
use reference::desk::{Desk as Held, Judged};
use reference::history::{pairs, Event, History};
use reference::layout::Layout;
use reference::limits::{
    MAX_DAY_BYTES, MAX_PAIRING_BYTES, MAX_PLAN_BYTES, MAX_RANK_BYTES, MAX_ROSTER_BYTES,
    NARROW_FIELD, OLD_PAIR_FIELD, PAIR_FIELD,
};
use reference::pairings;
use reference::plan;
use reference::random::{self, Random, Shape};
use reference::refusal::Refusal;
use reference::roster;

/// The calls, as rows of the tally.
const CALLS: [&str; 18] = [
    "load roster",
    "load plan",
    "write roster",
    "write plan",
    "find",
    "judge",
    "compare",
    "blocking",
    "join",
    "leave",
    "plan to new",
    "plan to old",
    "propose",
    "commit",
    "spread",
    "least",
    "write proposal",
    "holds",
];

/// How often each call answered and was refused by each number, 0 for none; how
/// often a comparison answered first, second, both, neither; and how often each
/// call found a proposal open and was refused, left it open, closed it.
#[derive(Default)]
struct Tally {
    calls: [[usize; NUMBERS]; CALLS.len()],
    winners: [usize; 4],
    open: [[usize; 3]; CALLS.len()],
    /// The last call and its refusal's number.
    last: (usize, u8),
}

impl Tally {
    /// Whether the two answers are the same refusal, or both none; counts it.
    fn refusals<A, B>(&mut self, call: usize, ours: &Result<A, u8>, theirs: &Result<B, Refusal>) {
        let number = theirs.as_ref().err().map_or(0, |refusal| refusal.number());
        let own = ours.as_ref().err().copied().unwrap_or(0);
        assert_eq!(own, number, "{}", CALLS[call]);
        self.count(call, number);
    }

    fn count(&mut self, call: usize, number: u8) {
        self.calls[call][usize::from(number)] += 1;
        self.last = (call, number);
    }

    /// Counts what the last call did, which found a proposal open.
    fn count_open(&mut self, stays: bool) {
        let fate = match self.last {
            (call, 0) => &mut self.open[call][if stays { 1 } else { 2 }],
            (call, _) => &mut self.open[call][0],
        };
        *fate += 1;
    }

    /// Whether the two sides wrote the same, each to its own buffer; counts it.
    fn written(
        &mut self,
        call: usize,
        (answer, own): (Result<usize, u8>, Vec<u8>),
        (expected, other): (Result<usize, Refusal>, Vec<u8>),
    ) {
        self.refusals(call, &answer, &expected);
        assert_eq!(
            (answer.ok(), own),
            (expected.ok(), other),
            "{}",
            CALLS[call]
        );
    }
}

/// What a sequence draws its files from.
struct Pool {
    rosters: Vec<Vec<u8>>,
    plans: Vec<Vec<u8>>,
    /// The plans as old files, each pair without its shift.
    old_plans: Vec<Vec<u8>>,
}

impl Pool {
    /// Two rosters and a damaged one; plans of each, one of them damaged. Few
    /// rosters have no room for another surveyor, or just for one; some have two
    /// plans that beat each other.
    fn new(random: &mut Random) -> Pool {
        let mut pool = Pool {
            rosters: Vec::new(),
            plans: Vec::new(),
            old_plans: Vec::new(),
        };
        for _ in 0..2 {
            let shifts = random.within(&(1..=3));
            let mut shape = Shape {
                counts: [1..=3, 1..=3],
                quotas: [0..=2, 0..=2],
                shifts,
                pairs: [75, 50, 35][usize::from(shifts) - 1],
                ties: 50,
                opposed: 60,
            };
            if random.chance(3) {
                shape.counts = [31..=32, 1..=2];
                shape.quotas[0] = 2..=2;
            }
            let roster = random::roster(random, &shape);
            for percent in [60, 90, 100] {
                let plan = random::plan(random, &roster, percent);
                pool.plans.push(plan::write(&roster, &plan));
                pool.old_plans
                    .push(plan::write_by(Layout::Old, &roster, &plan));
            }
            pool.rosters.push(roster::write(&roster));
        }
        if random.chance(10) {
            // rare among random plans
            pool.rosters[0] = P7_TWICE.to_vec();
            for (place, plan) in pool.plans.iter_mut().zip(BEAT_EACH_OTHER) {
                *place = plan.to_vec();
            }
        }
        let mut damaged = pool.rosters[0].clone();
        damage(random, &mut damaged);
        pool.rosters.push(damaged);
        for (plans, pair) in [
            (&mut pool.plans, PAIR_FIELD),
            (&mut pool.old_plans, OLD_PAIR_FIELD),
        ] {
            let mut damaged = plans[random.below(6)].clone();
            match damaged.get_mut(NARROW_FIELD..NARROW_FIELD + 2 * pair) {
                // rare among damages
                Some(two) if random.chance(20) => two.rotate_left(pair),
                _ => damage(random, &mut damaged),
            }
            plans.push(damaged);
        }
        pool
    }

    fn roster(&self, random: &mut Random) -> &[u8] {
        &self.rosters[random.below(self.rosters.len())]
    }

    fn plan(&self, random: &mut Random) -> &[u8] {
        &self.plans[random.below(self.plans.len())]
    }

    /// A plan of the first roster.
    fn first_plan(&self, random: &mut Random) -> &[u8] {
        &self.plans[random.below(3)]
    }

    fn old_plan(&self, random: &mut Random) -> &[u8] {
        &self.old_plans[random.below(self.old_plans.len())]
    }
}

/// A size, sometimes below what is needed.
fn size(random: &mut Random, needed: usize) -> usize {
    match random.below(10) {
        0 => needed - 1,
        1 => random.below(needed),
        2 => needed + 1,
        _ => needed,
    }
}

/// The two desks side by side, and what the calls on ours and its answers tell.
struct Desks<D> {
    ours: D,
    theirs: Held,
    history: History,
}

impl<D: Calls> Desks<D> {
    fn load_roster(mut self, tally: &mut Tally, file: &[u8]) -> Desks<D> {
        let (ours, answer) = self.ours.load_roster(file);
        let (theirs, expected) = self.theirs.load_roster(file);
        tally.refusals(0, &answer, &expected);
        self.history.tell(&answer, || Event::LoadRoster);
        Desks {
            ours,
            theirs,
            ..self
        }
    }

    fn load_plan(mut self, tally: &mut Tally, file: &[u8]) -> Desks<D> {
        let (ours, answer) = self.ours.load_plan(file);
        let (theirs, expected) = self.theirs.load_plan(file);
        tally.refusals(1, &answer, &expected);
        self.history.tell(&answer, || Event::LoadPlan(pairs(file)));
        Desks {
            ours,
            theirs,
            ..self
        }
    }

    fn propose(mut self, tally: &mut Tally, file: &[u8], before: &Pairings) -> Desks<D> {
        let [mut own, mut other] = [before.clone(), before.clone()];
        let (ours, answer) = self.ours.propose(file, own.lend());
        let (theirs, expected) = self.theirs.propose(file, other.lend());
        tally.refusals(12, &answer, &expected);
        assert_eq!(own, other);
        let votes = expected
            .ok()
            .map(|votes| (votes.first_against_second, votes.second_against_first));
        assert_eq!(answer.ok(), votes);
        self.history.tell(&answer, || Event::Propose(pairs(file)));
        Desks {
            ours,
            theirs,
            ..self
        }
    }

    fn commit(mut self, tally: &mut Tally) -> Desks<D> {
        let (ours, answer) = self.ours.commit();
        let (theirs, expected) = self.theirs.commit();
        tally.refusals(13, &answer, &expected);
        self.history.tell(&answer, || Event::Commit);
        Desks {
            ours,
            theirs,
            ..self
        }
    }

    fn write_roster(self, tally: &mut Tally, before: &[u8]) -> Desks<D> {
        let [mut own, mut other] = [before.to_vec(), before.to_vec()];
        let (ours, answer) = self.ours.write_roster(&mut own);
        let (theirs, expected) = self.theirs.write_roster(&mut other);
        tally.written(2, (answer, own), (expected, other));
        Desks {
            ours,
            theirs,
            ..self
        }
    }

    fn write_plan(self, tally: &mut Tally, before: &[u8]) -> Desks<D> {
        let [mut own, mut other] = [before.to_vec(), before.to_vec()];
        let (ours, answer) = self.ours.write_plan(&mut own);
        let (theirs, expected) = self.theirs.write_plan(&mut other);
        match answer {
            Ok(length) => assert_eq!(self.history.plan(), Some(pairs(&own[..length]))),
            Err(15) => {}
            Err(_) => assert_eq!(self.history.plan(), None),
        }
        tally.written(3, (answer, own), (expected, other));
        Desks {
            ours,
            theirs,
            ..self
        }
    }

    fn write_proposal(self, tally: &mut Tally, before: &[u8]) -> Desks<D> {
        let [mut own, mut other] = [before.to_vec(), before.to_vec()];
        let (ours, answer) = self.ours.write_proposal(&mut own);
        let (theirs, expected) = self.theirs.write_proposal(&mut other);
        tally.written(16, (answer, own), (expected, other));
        Desks {
            ours,
            theirs,
            ..self
        }
    }

    fn holds(self, tally: &mut Tally) -> Desks<D> {
        let (ours, holds) = self.ours.holds();
        assert_eq!(holds, self.theirs.holds());
        tally.count(17, 0);
        Desks { ours, ..self }
    }

    fn spread(self, tally: &mut Tally, before: &[u8]) -> Desks<D> {
        let [mut own, mut other] = [before.to_vec(), before.to_vec()];
        let (ours, answer) = self.ours.spread(&mut own);
        let (theirs, expected) = self.theirs.spread(&mut other);
        tally.refusals(14, &answer, &expected);
        match answer {
            Ok(count) => {
                let (roster, plan) = theirs.roster_and_plan().expect("roster and plan");
                check_days(roster, plan, before, &own, count);
            }
            Err(_) => assert_eq!(own, before),
        }
        Desks {
            ours,
            theirs,
            ..self
        }
    }

    fn least(self, tally: &mut Tally, files: [&[u8]; 3], before: &[u8]) -> Desks<D> {
        let [mut own, mut other] = [before.to_vec(), before.to_vec()];
        let [first, second, ranges] = files;
        let (ours, answer) = self.ours.least(files, &mut own);
        let (theirs, expected) = self.theirs.least(first, second, ranges, &mut other);
        tally.refusals(15, &answer, &expected);
        assert_eq!(answer.ok(), expected.ok());
        match answer {
            Ok(least) => {
                let roster = theirs.roster().expect("a roster");
                check_ranks(roster, files, before, &own, least);
            }
            Err(_) => assert_eq!(own, before),
        }
        Desks {
            ours,
            theirs,
            ..self
        }
    }

    /// Ranges of the held roster, sometimes damaged; any bytes where there is none.
    fn ranges(&self, random: &mut Random) -> Vec<u8> {
        let Ok(roster) = self.theirs.roster() else {
            return junk(random, 8);
        };
        let mut file = ranges_file(random, roster);
        for _ in 0..random.below(4).saturating_sub(1) {
            if !file.is_empty() {
                damage(random, &mut file);
            }
        }
        file
    }

    fn plan_to_new(self, tally: &mut Tally, file: &[u8], before: &[u8]) -> Desks<D> {
        let [mut own, mut other] = [before.to_vec(), before.to_vec()];
        let (ours, answer) = self.ours.plan_to_new(file, &mut own);
        let (theirs, expected) = self.theirs.plan_to_new(file, &mut other);
        tally.written(10, (answer, own), (expected, other));
        Desks {
            ours,
            theirs,
            ..self
        }
    }

    fn plan_to_old(self, tally: &mut Tally, file: &[u8], before: &[u8]) -> Desks<D> {
        let [mut own, mut other] = [before.to_vec(), before.to_vec()];
        let (ours, answer) = self.ours.plan_to_old(file, &mut own);
        let (theirs, expected) = self.theirs.plan_to_old(file, &mut other);
        tally.written(11, (answer, own), (expected, other));
        Desks {
            ours,
            theirs,
            ..self
        }
    }

    fn find(self, tally: &mut Tally, before: &Buffers) -> Desks<D> {
        let [mut own, mut other] = [before.clone(), before.clone()];
        let (ours, answer) = self.ours.find(own.lend());
        let (theirs, expected) = self.theirs.find(other.lend());
        tally.refusals(4, &answer, &expected);
        match (answer, expected) {
            (Ok(found), Ok(expected)) => {
                let roster = theirs.roster().expect("a roster");
                same_found(roster, before, (found, &own), (expected, other));
            }
            _ => assert_eq!(own, *before),
        }
        Desks {
            ours,
            theirs,
            ..self
        }
    }

    fn judge(self, tally: &mut Tally, [before, facing]: [&[u8]; 2]) -> Desks<D> {
        let [mut own, mut other] = [before.to_vec(), before.to_vec()];
        let [mut pairing, mut others] = [facing.to_vec(), facing.to_vec()];
        let (ours, answer) = self.ours.judge(&mut own, &mut pairing);
        let (theirs, expected) = self.theirs.judge(&mut other, &mut others);
        tally.refusals(5, &answer, &expected);
        let (vote, length) = match (answer, expected) {
            (Ok((Judged::Popular(vote), length)), Ok(Judged::Popular(_))) => (vote, length),
            (Ok((Judged::Beaten(vote), length)), Ok(Judged::Beaten(_))) => (vote, length),
            (Ok((Judged::Strong, 0)), Ok(Judged::Strong)) | (Err(_), _) => {
                assert_eq!((&own[..], &pairing[..]), (before, facing));
                return Desks {
                    ours,
                    theirs,
                    ..self
                };
            }
            _ => panic!("{answer:?}, but {expected:?}"),
        };
        let (roster, plan) = theirs.roster_and_plan().expect("roster and plan");
        let rival = check_rival(roster, plan, before, &own, vote);
        assert_eq!(length, plan::write(roster, &rival).len());
        let faced = pairings::bytes_large(roster, plan, &rival);
        only_front(facing, &pairing, &faced);
        Desks {
            ours,
            theirs,
            ..self
        }
    }

    fn compare(self, tally: &mut Tally, files: [&[u8]; 2], before: &Pairings) -> Desks<D> {
        let [mut own, mut other] = [before.clone(), before.clone()];
        let [first, second] = files;
        let (ours, (answer, part)) = self.ours.compare(first, second, own.lend());
        let (theirs, expected) = self.theirs.compare(first, second, other.lend());
        tally.refusals(6, &answer, &expected.outcome);
        assert_eq!(own, other);
        let votes = expected.outcome.ok().map(|votes| {
            let (first, second) = (votes.first_against_second, votes.second_against_first);
            tally.winners[votes.winner() as usize] += 1;
            (first, second, votes.winner())
        });
        assert_eq!((answer.ok(), part), (votes, expected.part));
        Desks {
            ours,
            theirs,
            ..self
        }
    }

    fn blocking(self, tally: &mut Tally) -> Desks<D> {
        let (ours, answer) = self.ours.blocking();
        let (theirs, expected) = self.theirs.blocking();
        tally.refusals(7, &answer, &expected);
        if let (Ok(shown), Ok(first)) = (answer, expected) {
            assert_eq!(
                shown,
                first.map(|pair| (pair.surveyor, pair.stand, pair.shift))
            );
        }
        Desks {
            ours,
            theirs,
            ..self
        }
    }

    /// A surveyor joins or leaves.
    fn change(mut self, tally: &mut Tally, change: &Change, before: &Buffers) -> Desks<D> {
        let changed = change.check(self.ours, self.theirs, before);
        let call = match change {
            Change::Join(..) => 8,
            Change::Leave(number) => {
                let event = || Event::Leave(*number);
                self.history.tell(&changed.answer, event);
                9
            }
        };
        tally.count(call, changed.answer.err().unwrap_or(0));
        Desks {
            ours: changed.ours,
            theirs: changed.theirs,
            ..self
        }
    }

    /// Whether the files in the desk under test are those of what is held, and its
    /// plan is the one that is told.
    fn check(&self) {
        let files = self.ours.files();
        assert_eq!(files, files_of(&self.theirs));
        let [_, plan, _] = &files;
        let held = (!plan.is_empty()).then(|| pairs(plan));
        assert_eq!(self.history.plan(), held);
    }

    /// A random call, and what it leaves.
    fn step(self, random: &mut Random, tally: &mut Tally, pool: &Pool) -> Desks<D> {
        let open = self.theirs.proposal().is_ok();
        let after = self.call(random, tally, pool);
        after.check();
        if open {
            tally.count_open(after.theirs.proposal().is_ok());
        }
        after
    }

    /// A random call.
    fn call(self, random: &mut Random, tally: &mut Tally, pool: &Pool) -> Desks<D> {
        match random.below(32) {
            0 | 1 => self.load_roster(tally, pool.roster(random)),
            2..=4 => self.load_plan(tally, pool.plan(random)),
            5 => {
                let size = size(random, MAX_ROSTER_BYTES);
                self.write_roster(tally, &junk(random, size))
            }
            6 => {
                let size = size(random, MAX_PLAN_BYTES);
                self.write_plan(tally, &junk(random, size))
            }
            7 => self.find(tally, &buffers(random)),
            8 => {
                let sizes = [MAX_PLAN_BYTES, MAX_PAIRING_BYTES];
                let [rival, pairing] = sizes.map(|needed| {
                    let size = size(random, needed);
                    junk(random, size)
                });
                self.judge(tally, [&rival, &pairing])
            }
            9 | 10 => {
                let files = [(); 2].map(|()| pool.plan(random));
                self.compare(tally, files, &pairings_buffers(random))
            }
            11 => self.blocking(tally),
            12 | 13 => {
                let size = size(random, MAX_PLAN_BYTES);
                self.plan_to_new(tally, pool.old_plan(random), &junk(random, size))
            }
            14 | 15 => {
                let size = size(random, MAX_PLAN_BYTES);
                self.plan_to_old(tally, pool.plan(random), &junk(random, size))
            }
            16..=18 => self.propose(tally, pool.plan(random), &pairings_buffers(random)),
            19 | 20 => self.commit(tally),
            21 => {
                let size = size(random, MAX_DAY_BYTES);
                self.spread(tally, &junk(random, size))
            }
            22..=24 => {
                let size = size(random, MAX_RANK_BYTES);
                let [first, second] = [(); 2].map(|()| pool.plan(random));
                let ranges = self.ranges(random);
                self.least(tally, [first, second, &ranges], &junk(random, size))
            }
            25 | 26 => {
                let size = size(random, MAX_PLAN_BYTES);
                self.write_proposal(tally, &junk(random, size))
            }
            27 => self.holds(tally),
            _ => {
                let change = Change::random(random, &self.theirs);
                self.change(tally, &change, &buffers(random))
            }
        }
    }
}

/// Buffers for the finder, one of them sometimes below its size.
fn buffers(random: &mut Random) -> Buffers {
    let mut sizes = SIZES;
    if random.chance(20) {
        let place = random.below(SIZES.len());
        sizes[place] = size(random, sizes[place]);
    }
    Buffers::new(random, sizes)
}

/// Buffers for the pairings of both votes, sometimes below their size.
fn pairings_buffers(random: &mut Random) -> Pairings {
    let sizes = [(); 2].map(|()| size(random, MAX_PAIRING_BYTES));
    Pairings::new(random, sizes)
}

/// Runs so many sequences, each on a desk that `open` gives; every answer that a
/// call can meet comes at least `least` times.
pub fn run<D: Calls>(mut open: impl FnMut() -> D, seed: u64, sequences: usize, least: usize) {
    let mut random = Random::new(seed);
    let mut tally = Tally::default();
    let full = [MAX_ROSTER_BYTES, MAX_PLAN_BYTES].map(|size| junk(&mut random, size));
    for _ in 0..sequences {
        let pool = Pool::new(&mut random);
        let mut desks = Desks {
            ours: open(),
            theirs: Held::default(),
            history: History::default(),
        };
        if random.chance(80) {
            desks = desks.load_roster(&mut tally, &pool.rosters[0]);
            if random.chance(50) {
                desks = desks.load_plan(&mut tally, pool.first_plan(&mut random));
            }
        }
        for _ in 0..5 + random.below(13) {
            desks = desks.step(&mut random, &mut tally, &pool);
        }
        // what is held at the end
        desks = desks.write_roster(&mut tally, &full[0]);
        desks.write_plan(&mut tally, &full[1]);
    }
    for (call, counts) in CALLS.iter().zip(&tally.calls) {
        println!("{call}: answered and refused {counts:?}");
    }
    println!("first, second, both, neither: {:?}", tally.winners);
    for (call, fates) in CALLS.iter().zip(&tally.open) {
        println!("{call}, a proposal open: refused, left open, closed {fates:?}");
    }
    // too few sequences to meet all that is rare
    if least == 0 {
        return;
    }
    let plan_refusals = [0, 1, 2, 9, 10, 11, 12, 13];
    let turned = [&plan_refusals[..], &[15]].concat();
    let expected: [&[usize]; CALLS.len()] = [
        &[0, 1, 2, 3, 4, 5, 6, 7, 8, 9, 18],
        &plan_refusals,
        &[0, 13, 15],
        &[0, 13, 14, 15],
        &[0, 13, 15],
        &[0, 13, 14, 15],
        &turned,
        &[0, 13, 14],
        &[0, 1, 2, 3, 4, 5, 9, 13, 15, 17, 18],
        &[0, 13, 15, 16],
        &turned,
        &[&turned[..], &[19]].concat(),
        &[&turned[..], &[14]].concat(),
        &[0, 13, 14, 20],
        &[0, 13, 14, 15],
        &[&turned[..], &[21]].concat(),
        &[0, 13, 14, 15, 20],
        &[0],
    ];
    for (call, numbers) in expected.iter().enumerate() {
        for &number in *numbers {
            let count = tally.calls[call][number];
            assert!(
                count >= least,
                "{}: {number} came {count} times",
                CALLS[call]
            );
        }
    }
    assert!(tally.winners.iter().all(|&count| count >= least));
    check_open(&tally, least);
}

/// Every call that can be refused, or leave a proposal open, or close it, does so
/// often enough, and no other does so at all.
fn check_open(tally: &Tally, least: usize) {
    for (call, counts) in CALLS.iter().zip(&tally.open) {
        let expected = match *call {
            "load roster" | "load plan" | "join" => [true, false, true],
            "leave" => [true, true, true],
            "blocking" | "holds" => [false, true, false],
            "commit" => [false, false, true],
            _ => [true, true, false],
        };
        for (&count, expected) in counts.iter().zip(expected) {
            assert_eq!(count >= least, expected, "{call}: {counts:?}");
            assert!(expected || count == 0, "{call}: {counts:?}");
        }
    }
}
