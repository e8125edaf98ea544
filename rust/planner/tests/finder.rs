//! The proved finder, through the desk: small rosters counted by brute force,
//! rosters up to the limits against the reference's finder, damaged rosters,
//! and every byte of every lent buffer, which are full of junk before. A plan
//! that it hands back is the only popular one and has no blocking pair, by the
//! verdict and the blocking call.

mod calls;
mod common;
mod lent;

use calls::{Calls, Desk, Told};
use common::{damage, plan_front, NUMBERS};
use lent::{Buffers, SIZES};
use reference::desk::{record, Found, Judged, NoneKind, Record};
use reference::every;
use reference::fast::{self, finder::Ending, roster::Instance};
use reference::plan::{self, Plan};
use reference::plans::Verdict;
use reference::random::{self, Random};
use reference::reduction;
use reference::roster::{self, Pair, Roster};
use reference::tables::{Contest, Tables};

/// How often what happened.
#[derive(Debug, Default)]
struct Tally {
    rosters: u64,
    /// Rosters in which a surveyor and a stand are a pair in several shifts.
    parallel: u64,
    /// How often each rule acted, rule 1 at index 0.
    rules: [u64; 7],
    plan: u64,
    /// The other plans of rosters for which a plan was handed back.
    others: u64,
    left: u64,
    rivalled_at_zero: u64,
    rivalled_below_zero: u64,
}

impl Tally {
    fn count(&mut self, roster: &Roster, diary: &[Record], found: Found) {
        self.rosters += 1;
        self.parallel += u64::from(roster.has_parallel_pairs());
        for record in diary {
            self.rules[usize::from(record.rule) - 1] += 1;
        }
        match found {
            Found::Plan { .. } => self.plan += 1,
            Found::None { kind, .. } => match kind {
                NoneKind::Left(_) => self.left += 1,
                NoneKind::Rivalled(0) => self.rivalled_at_zero += 1,
                NoneKind::Rivalled(_) => self.rivalled_below_zero += 1,
            },
        }
    }

    fn print(&self, heading: &str) {
        println!(
            "{heading}: {} rosters, {} of them with parallel pairs",
            self.rosters, self.parallel
        );
        println!("  acts of rules 1 to 7: {:?}", self.rules);
        println!(
            "  plan {} with {} others, left {}, rivalled at zero {}, rivalled below zero {}",
            self.plan, self.others, self.left, self.rivalled_at_zero, self.rivalled_below_zero
        );
    }

    fn assert_at_least(&self, rules: u64, endings: u64) {
        assert!(self.rules.iter().all(|&count| count >= rules), "{self:?}");
        let rivalled = self.rivalled_at_zero.min(self.rivalled_below_zero);
        let least = self.plan.min(self.left).min(rivalled);
        assert!(least >= endings, "{self:?}");
    }
}

/// A desk with this roster.
fn loaded(bytes: &[u8]) -> Desk {
    let (desk, answer) = Desk::open().load_roster(bytes);
    assert_eq!(answer, Ok(()), "{bytes:?}");
    desk
}

/// W-213, by the calls: every plan but the one handed back is beaten, and that one
/// has no blocking pair. Tells how many others there are.
fn check_only_popular(roster: &Roster, bytes: &[u8], contest: &Contest, handed_back: usize) -> u64 {
    let mut desk = loaded(bytes);
    let mut others = 0;
    for (place, plan) in contest.plans().iter().enumerate() {
        let file = plan::write(roster, plan);
        let (holding, answer) = desk.load_plan(&file);
        assert_eq!(answer, Ok(()), "{bytes:?} {file:?}");
        desk = if place == handed_back {
            let (holding, blocking) = holding.blocking();
            assert_eq!(blocking, Ok(None), "{bytes:?} {file:?}");
            holding
        } else {
            others += 1;
            let mut rival = [0; planner::PLAN_BYTES];
            let (holding, judged) = holding.judge(&mut rival, &mut [0; planner::PAIRING_BYTES]);
            assert!(
                matches!(judged, Ok((Judged::Beaten(vote), _)) if vote < 0),
                "{judged:?}: {bytes:?} {file:?}"
            );
            holding
        };
    }
    others
}

/// The pairs as they stand in the buffer for left pairs.
fn pair_bytes(roster: &Roster, pairs: impl IntoIterator<Item = usize>) -> Vec<u8> {
    let pairs = pairs.into_iter().map(|pair| roster.pairs()[pair]);
    pairs.flat_map(Pair::bytes).collect()
}

/// The rival in a buffer, which must be another plan within the quotas.
fn rival_in(roster: &Roster, buffer: &[u8], candidate: &Plan) -> (Vec<u8>, Plan) {
    let front = plan_front(buffer).to_vec();
    let rival = plan::read(roster, &front)
        .unwrap_or_else(|refusal| panic!("{refusal:?}: {:?} {front:?}", roster::write(roster)));
    assert_ne!(rival, *candidate, "{:?}", roster::write(roster));
    (front, rival)
}

/// What a check keeps from roster to roster.
struct Checks {
    random: Random,
    tables: Tables,
    before: Buffers,
    /// Of how many rosters with a plan one has all its other plans judged; none
    /// if 0.
    one_judged_of: u64,
    tally: Tally,
}

impl Checks {
    fn new(seed: u64) -> Checks {
        let mut random = Random::new(seed);
        Checks {
            before: Buffers::new(&mut random, SIZES),
            random,
            tables: Tables::default(),
            one_judged_of: 0,
            tally: Tally::default(),
        }
    }

    /// Runs the finder on buffers full of junk.
    fn find(&mut self, bytes: &[u8]) -> (Told, Buffers) {
        if self.random.chance(1) {
            let sizes = SIZES.map(|size| size + self.random.below(3));
            self.before = Buffers::new(&mut self.random, sizes);
        }
        let mut after = self.before.clone();
        let (_, answer) = loaded(bytes).find(after.lend());
        let found = answer.unwrap_or_else(|number| panic!("refused {number}: {bytes:?}"));
        (found, after)
    }

    /// Holds one small roster against the count of its strong plans, by all
    /// votes, and against the plain rules.
    fn small(&mut self, roster: &Roster) {
        let bytes = roster::write(roster);
        let ((found, lengths), after) = self.find(&bytes);
        let outcome = reduction::reduce(roster);
        let steps: Vec<Record> = outcome
            .diary
            .iter()
            .map(|step| record(roster, step))
            .collect();
        let contest = self.tables.contest(roster);
        let strong = contest.strongly_popular();
        let before = &self.before;
        match found {
            Found::Plan { steps: number } => {
                assert_eq!(number, steps.len(), "{bytes:?}");
                assert_eq!(strong.len(), 1, "{bytes:?}");
                let plan = plan::write(roster, &contest.plans()[strong[0]]);
                let written = after.hold(before, &steps, &[], &plan, &[]);
                assert_eq!(lengths, written, "{bytes:?}");
                if self.one_judged_of > 0 && self.tally.plan.is_multiple_of(self.one_judged_of) {
                    self.tally.others += check_only_popular(roster, &bytes, &contest, strong[0]);
                }
            }
            Found::None {
                steps: number,
                kind: NoneKind::Left(left),
            } => {
                assert_eq!(number, steps.len(), "{bytes:?}");
                assert_eq!(strong, [], "{bytes:?}");
                assert_eq!(left, outcome.left.len(), "{bytes:?}");
                assert!(left > 0);
                let pairs = pair_bytes(roster, outcome.left.iter().copied());
                let written = after.hold(before, &steps, &pairs, &[], &[]);
                assert_eq!(lengths, written, "{bytes:?}");
            }
            Found::None {
                steps: number,
                kind: NoneKind::Rivalled(vote),
            } => {
                assert_eq!(number, steps.len(), "{bytes:?}");
                assert_eq!(strong, [], "{bytes:?}");
                assert_eq!(outcome.left, [], "{bytes:?}");
                let (front, rival) = rival_in(roster, &after.rival, &outcome.fixed);
                let candidate = plan::write(roster, &outcome.fixed);
                let written = after.hold(before, &steps, &[], &candidate, &front);
                assert_eq!(lengths, written, "{bytes:?}");
                let place = |plan: &Plan| {
                    let mut plans = contest.plans().iter();
                    plans
                        .position(|other| other == plan)
                        .expect("within the quotas")
                };
                let own = place(&outcome.fixed);
                assert_eq!(contest.vote(own, place(&rival)), vote, "{bytes:?}");
                match contest.verdict(own) {
                    Verdict::Popular(_) => assert_eq!(vote, 0, "{bytes:?}"),
                    Verdict::Beaten(_) => assert!(vote < 0, "{bytes:?}"),
                    Verdict::Strong => panic!("strong, but rivalled: {bytes:?}"),
                }
            }
        }
        self.tally.count(roster, &steps, found);
    }

    /// Holds one roster against the fast finder: byte for byte, but the rival
    /// by its vote.
    fn large(&mut self, roster: &Roster) {
        let bytes = roster::write(roster);
        let ((found, lengths), after) = self.find(&bytes);
        let instance = fast::roster::read(&bytes).expect("accepted");
        let expected = fast::finder::find(&instance);
        let steps = expected.steps.iter();
        let steps: Vec<Record> = steps.map(|step| fast_record(&instance, step)).collect();
        let number = steps.len();
        let before = &self.before;
        match expected.ending {
            Ending::Plan(chosen) => {
                assert_eq!(found, Found::Plan { steps: number }, "{bytes:?}");
                let written = after.hold(before, &steps, &[], &written(&instance, &chosen), &[]);
                assert_eq!(lengths, written, "{bytes:?}");
            }
            Ending::Left(left) => {
                let kind = NoneKind::Left(left.len());
                assert_eq!(
                    found,
                    Found::None {
                        steps: number,
                        kind
                    },
                    "{bytes:?}"
                );
                let pairs = pair_bytes(roster, left.iter().map(|&pair| usize::from(pair)));
                let written = after.hold(before, &steps, &pairs, &[], &[]);
                assert_eq!(lengths, written, "{bytes:?}");
            }
            Ending::Rivalled { candidate, rival } => {
                let Found::None {
                    steps: told,
                    kind: NoneKind::Rivalled(vote),
                } = found
                else {
                    panic!("{found:?}, but rivalled: {bytes:?}");
                };
                assert_eq!(
                    (told, vote.signum()),
                    (number, rival.vote.signum()),
                    "{bytes:?}"
                );
                let own = written(&instance, &candidate);
                let plan = plan::read(roster, &own).expect("within the quotas");
                let (front, _) = rival_in(roster, &after.rival, &plan);
                let written = after.hold(before, &steps, &[], &own, &front);
                assert_eq!(lengths, written, "{bytes:?}");
                let other = fast::plan::read(&instance, &front).expect("within the quotas");
                assert_eq!(
                    fast::vote::vote(&instance, &candidate, &other),
                    vote,
                    "{bytes:?}"
                );
            }
        }
        self.tally.count(roster, &steps, found);
    }
}

fn fast_record(instance: &Instance, step: &fast::reduction::Step) -> Record {
    let (surveyor, stand, shift) = instance.numbers(step.pair);
    Record {
        fate: if step.fixed { 1 } else { 2 },
        surveyor,
        stand,
        shift,
        rule: step.rule,
    }
}

fn written(instance: &Instance, chosen: &fast::plan::Chosen) -> Vec<u8> {
    let mut out = [0; planner::PLAN_BYTES];
    let length = fast::plan::write(instance, chosen, &mut out);
    out[..length].to_vec()
}

#[test]
fn every_small_roster() {
    let mut checks = Checks::new(81);
    for size in &every::SMALL {
        // all of them, but where the rosters are very many
        checks.one_judged_of = if size.rosters <= 100_000 { 1 } else { 20 };
        every::for_each_roster(size, |roster| checks.small(roster));
    }
    checks.tally.print("every small roster");
    assert!(checks.tally.rosters >= 500_000);
    assert!(checks.tally.parallel >= 500_000);
    assert!(checks.tally.others >= 500_000);
    checks.tally.assert_at_least(2_000, 4_000);
}

#[test]
fn random_small_rosters() {
    let mut checks = Checks::new(82);
    for shape in random::small_shapes() {
        for _ in 0..10_000 {
            let roster = random::roster(&mut checks.random, &shape);
            checks.small(&roster);
        }
    }
    checks.tally.print("random small rosters");
    checks.tally.assert_at_least(3_000, 3_000);
}

#[test]
fn rosters_up_to_the_limits() {
    let mut checks = Checks::new(83);
    for _ in 0..8_000 {
        let shape = random::any_shape(&mut checks.random);
        let roster = random::roster(&mut checks.random, &shape);
        checks.large(&roster);
    }
    for turn in 0..200 {
        let [ties, opposed] = [[0, 0], [50, 20], [100, 50], [60, 100]][turn % 4];
        let shape = random::longest_shape(ties, opposed);
        let roster = random::roster(&mut checks.random, &shape);
        assert_eq!(roster.pairs().len(), 1_024);
        checks.large(&roster);
        let (roster, _) = match turn % 4 {
            0 => random::chained(&mut checks.random),
            tied => random::agreed(&mut checks.random, 2 * (tied - 1)),
        };
        checks.large(&roster);
    }
    checks.tally.print("rosters up to the limits");
    checks.tally.assert_at_least(200, 100);
}

#[test]
fn damaged_rosters() {
    let mut random = Random::new(84);
    let mut met = [0usize; NUMBERS];
    let mut checks = Checks::new(85);
    for _ in 0..60_000 {
        let shape = random::small_shape(&mut random);
        let mut file = roster::write(&random::roster(&mut random, &shape));
        for _ in 0..=random.below(2) {
            damage(&mut random, &mut file);
        }
        match roster::read(&file) {
            Ok(roster) => {
                met[0] += 1;
                if random.chance(10) && within_tables(&roster) {
                    checks.small(&roster);
                }
            }
            Err(refusal) => {
                let (desk, answer) = Desk::open().load_roster(&file);
                assert_eq!(answer, Err(refusal.number()), "{file:?}");
                met[usize::from(refusal.number())] += 1;
                // nothing is loaded by a file that is refused
                let before = checks.before.clone();
                let mut after = before.clone();
                let (_, answer) = desk.find(after.lend());
                assert_eq!(answer, Err(13), "{file:?}");
                assert_eq!(after, before);
            }
        }
    }
    println!("accepted and refusals met: {met:?}");
    for number in (0..=9).chain([18]) {
        assert!(met[number] > 50, "refusal {number} is too rare");
    }
}

/// Whether the plans of a roster can all be tried in short time.
fn within_tables(roster: &Roster) -> bool {
    use reference::roster::SIDES;
    let nodes = || SIDES.iter().flat_map(|&side| roster.nodes(side));
    nodes().all(|node| node.list.length() <= 6 && node.quota <= 4) && roster.pairs().len() <= 12
}

#[test]
fn refusals_of_the_desk() {
    let mut random = Random::new(86);
    let p3 = [
        2, 1, 1, 1, 1, 2, 0, 1, 1, 1, 1, 1, 1, 2, 0, 2, 0, 1, 1, 2, 1,
    ];
    for place in 0..SIZES.len() {
        for missing in [1, SIZES[place]] {
            let mut sizes = SIZES;
            sizes[place] -= missing;
            for (desk, expected) in [(loaded(&p3), 15), (Desk::open(), 13)] {
                let before = Buffers::new(&mut random, sizes);
                let mut after = before.clone();
                let (_, answer) = desk.find(after.lend());
                assert_eq!(answer, Err(expected));
                assert_eq!(after, before);
            }
        }
    }
    let before = Buffers::new(&mut random, SIZES);
    let mut after = before.clone();
    let (_, answer) = Desk::open().find(after.lend());
    assert_eq!(answer, Err(13));
    assert_eq!(after, before);
}
