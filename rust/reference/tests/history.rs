//! Random sequences of calls on the desk: after each call the held plan is what
//! the calls and their answers tell, and a proposal is open if the request says
//! so.

mod common;
mod lent;

use std::collections::BTreeMap;

use common::damage;
use lent::{Buffers, Pairings, SIZES};
use reference::desk::Desk;
use reference::history::{pairs, Event, History};
use reference::limits::{MAX_DAY_BYTES, MAX_PAIRING_BYTES, MAX_PLAN_BYTES, MAX_ROSTER_BYTES};
use reference::plan;
use reference::random::{self, fitting_list, small_shape, Random};
use reference::refusal::Refusal;
use reference::roster::{self, narrow, Roster, Side};

const SEQUENCES: usize = 40_000;
const CALLS: usize = 30;
/// After so many calls, which most often find nothing loaded, a roster is.
const UNLOADED: usize = 2;

/// What a call did to a proposal: none was open before or after, one was opened,
/// replaced, left open, closed.
#[derive(Clone, Copy, Debug, PartialEq, Eq, PartialOrd, Ord)]
enum Proposal {
    None,
    Opened,
    Replaced,
    Kept,
    Closed,
}

/// How often each call was accepted or refused, and what it did to a proposal;
/// and how often what else the sentence speaks of came.
#[derive(Default)]
struct Tally {
    calls: BTreeMap<(&'static str, u8, Proposal), usize>,
    told: BTreeMap<&'static str, usize>,
}

/// A desk, and the history of its calls.
struct Session {
    desk: Desk,
    history: History,
    /// Whether the held plan was committed, rather than loaded.
    committed: bool,
    /// Whether somebody left again since the open proposal was made.
    left_again: bool,
}

impl Session {
    /// One call by its name: the desk after it, with the answer and what it tells.
    fn call(
        &mut self,
        tally: &mut Tally,
        name: &'static str,
        made: impl FnOnce(Desk) -> (Desk, Result<(), Refusal>),
        event: Option<Event>,
    ) {
        let before = self.desk.clone();
        let (desk, answer) = made(std::mem::take(&mut self.desk));
        self.desk = desk;
        if let Some(event) = event {
            self.history.tell(&answer, || event);
        }
        assert_eq!(self.history.plan(), held(&self.desk), "{name}");
        if answer.is_err() {
            assert_eq!(self.desk, before, "{name}");
        }
        let open = before.proposal().is_ok();
        assert_eq!(
            self.desk.proposal().is_ok(),
            self.stays_open(name, &before, &answer),
            "{name}"
        );
        let proposal = match (open, self.desk.proposal().is_ok()) {
            (false, false) => Proposal::None,
            (false, true) => Proposal::Opened,
            (true, true) if name == "propose" && answer.is_ok() => Proposal::Replaced,
            (true, true) => Proposal::Kept,
            (true, false) => Proposal::Closed,
        };
        let number = answer.err().map_or(0, Refusal::number);
        *tally.calls.entry((name, number, proposal)).or_default() += 1;
        if answer.is_ok() {
            self.note(tally, name, &before);
        }
    }

    /// Whether a proposal is open after a call, by the request's words.
    fn stays_open(&self, name: &str, before: &Desk, answer: &Result<(), Refusal>) -> bool {
        let open = before.proposal().is_ok();
        match (name, answer) {
            (_, Err(_)) => open,
            ("load roster" | "load plan" | "join" | "commit", Ok(())) => false,
            ("propose", Ok(())) => true,
            ("leave", Ok(())) => open && bytes(before) == bytes(&self.desk),
            (_, Ok(())) => open,
        }
    }

    /// Counts what the sentence speaks of.
    fn note(&mut self, tally: &mut Tally, name: &'static str, before: &Desk) {
        let mut count = |what| *tally.told.entry(what).or_default() += 1;
        let [was, is] = [before, &self.desk].map(held);
        match name {
            "load roster" => {
                if was.is_some() {
                    count("a plan dropped");
                }
                self.committed = false;
            }
            "load plan" => {
                if self.committed {
                    count("loaded after a commit");
                }
                self.committed = false;
            }
            "propose" => self.left_again = false,
            "commit" => {
                if was == is {
                    count("the held plan committed");
                }
                if self.left_again {
                    count("left again between a proposal and its commit");
                }
                self.committed = true;
            }
            "leave" if is.is_none() => count("left with no plan held"),
            "leave" if was != is && self.committed => count("left after a commit"),
            "leave" if was != is => count("left after a load"),
            "leave" => self.left_again = true,
            _ => {}
        }
    }
}

/// The pairs of the held plan, in numbers.
fn held(desk: &Desk) -> Option<Vec<[u8; 3]>> {
    let (roster, plan) = desk.roster_and_plan().ok()?;
    Some(plan.pairs(roster).map(|pair| pair.bytes()).collect())
}

/// The bytes of the held roster.
fn bytes(desk: &Desk) -> Vec<u8> {
    roster::write(desk.roster().expect("a roster"))
}

/// A plan file of the held roster, now and then damaged; any bytes where none is
/// held. Now and then it is the held plan's own.
fn plan_file(random: &mut Random, desk: &Desk) -> Vec<u8> {
    let Ok(roster) = desk.roster() else {
        return vec![0];
    };
    let mut file = match desk.roster_and_plan() {
        Ok((roster, held)) if random.chance(10) => plan::write(roster, held),
        _ => {
            let percent = [50, 80, 100][random.below(3)];
            plan::write(roster, &random::plan(random, roster, percent))
        }
    };
    match random.below(100) {
        0..=14 => damage(random, &mut file),
        15 => file[0] = 65,
        _ => {}
    }
    file
}

/// Buffers for the finder, one of them sometimes below its size.
fn buffers(random: &mut Random) -> Buffers {
    let mut sizes = SIZES;
    if random.chance(10) {
        sizes[random.below(SIZES.len())] -= 1;
    }
    Buffers::new(sizes)
}

/// A size, sometimes too small.
fn size(random: &mut Random, needed: usize) -> usize {
    needed - usize::from(random.chance(10))
}

fn done<A>((desk, answer): (Desk, Result<A, Refusal>)) -> (Desk, Result<(), Refusal>) {
    (desk, answer.map(|_| ()))
}

fn count(desk: &Desk, side: Side) -> usize {
    desk.roster().map_or(0, |roster| roster.nodes(side).len())
}

/// A random call.
fn call(random: &mut Random, tally: &mut Tally, session: &mut Session, rosters: &[Vec<u8>]) {
    match random.below(32) {
        0 => {
            let file = &rosters[random.below(rosters.len())];
            let event = Some(Event::LoadRoster);
            session.call(tally, "load roster", |desk| desk.load_roster(file), event);
        }
        1..=4 => {
            let file = plan_file(random, &session.desk);
            let event = Some(Event::LoadPlan(pairs(&file)));
            session.call(tally, "load plan", |desk| desk.load_plan(&file), event);
        }
        5..=11 => {
            let file = plan_file(random, &session.desk);
            let event = Some(Event::Propose(pairs(&file)));
            let mut pairings = pairings(random);
            let propose = |desk| propose(desk, &file, &mut pairings);
            session.call(tally, "propose", propose, event);
        }
        12..=16 => session.call(tally, "commit", Desk::commit, Some(Event::Commit)),
        17..=22 => {
            let number = narrow(random.below(count(&session.desk, Side::Surveyors) + 2));
            let mut buffers = buffers(random);
            let leave = |desk: Desk| done(desk.leave(number, buffers.lend()));
            session.call(tally, "leave", leave, Some(Event::Leave(number)));
        }
        23 => {
            let quota = [0, 1, 1, 2, 9][random.below(5)];
            let mut list = match session.desk.roster() {
                Ok(roster) => fitting_list(random, roster, 30),
                Err(_) => vec![0],
            };
            if random.chance(25) {
                damage(random, &mut list);
            }
            let mut buffers = buffers(random);
            let join = |desk: Desk| done(desk.join(quota, &list, buffers.lend()));
            session.call(tally, "join", join, None);
        }
        _ => look(random, tally, session),
    }
}

/// A call that leaves the desk alike.
fn look(random: &mut Random, tally: &mut Tally, session: &mut Session) {
    let plan_size = size(random, MAX_PLAN_BYTES);
    let mut out = vec![0; plan_size];
    match random.below(9) {
        0 => {
            let mut out = vec![0; size(random, MAX_ROSTER_BYTES)];
            let write = |desk: Desk| done(desk.write_roster(&mut out));
            session.call(tally, "write roster", write, None);
        }
        1 => {
            let told = session.history.plan();
            let write = |desk: Desk| {
                let (desk, length) = desk.write_plan(&mut out);
                if let Ok(length) = length {
                    assert_eq!(told, Some(pairs(&out[..length])));
                }
                done((desk, length))
            };
            session.call(tally, "write plan", write, None);
        }
        2 => {
            let mut buffers = buffers(random);
            let find = |desk: Desk| done(desk.find(buffers.lend()));
            session.call(tally, "find", find, None);
        }
        3 => {
            let mut pairing = vec![0; size(random, MAX_PAIRING_BYTES)];
            let judge = |desk: Desk| done(desk.judge(&mut out, &mut pairing));
            session.call(tally, "judge", judge, None);
        }
        4 => {
            let files = [(); 2].map(|()| plan_file(random, &session.desk));
            let mut pairings = pairings(random);
            let compare = |desk: Desk| {
                let (desk, compared) = desk.compare(&files[0], &files[1], pairings.lend());
                done((desk, compared.outcome))
            };
            session.call(tally, "compare", compare, None);
        }
        5 => session.call(tally, "blocking", |desk| done(desk.blocking()), None),
        6 => {
            let mut out = vec![0; size(random, MAX_DAY_BYTES)];
            let spread = |desk: Desk| done(desk.spread(&mut out));
            session.call(tally, "spread", spread, None);
        }
        7 => {
            let turn = |desk: Desk| done(desk.plan_to_new(&[0], &mut out));
            session.call(tally, "plan to new", turn, None);
        }
        _ => {
            let file = plan_file(random, &session.desk);
            let turn = |desk: Desk| done(desk.plan_to_old(&file, &mut out));
            session.call(tally, "plan to old", turn, None);
        }
    }
}

/// A proposal, whose votes are those of a comparison with the held plan.
fn propose(desk: Desk, file: &[u8], lent: &mut Pairings) -> (Desk, Result<(), Refusal>) {
    let own = desk.roster_and_plan();
    let own = own.map(|(roster, held)| plan::write(roster, held));
    let mut again = lent.clone();
    let (desk, votes) = desk.propose(file, lent.lend());
    let (desk, compared) = desk.compare(file, &own.unwrap_or_default(), again.lend());
    if let Ok(votes) = votes {
        assert_eq!(compared.outcome, Ok(votes));
        assert_eq!(*lent, again);
    }
    done((desk, votes))
}

/// Buffers for pairings, one of them sometimes below its size.
fn pairings(random: &mut Random) -> Pairings {
    Pairings::new([(); 2].map(|()| size(random, MAX_PAIRING_BYTES)))
}

/// Two rosters of one shape and a damaged one.
fn rosters(random: &mut Random) -> Vec<Vec<u8>> {
    let shape = small_shape(random);
    let rosters: [Roster; 2] = [(); 2].map(|()| random::roster(random, &shape));
    let mut files: Vec<Vec<u8>> = rosters.iter().map(roster::write).collect();
    let mut damaged = files[0].clone();
    damage(random, &mut damaged);
    files.push(damaged);
    files
}

/// What every call can meet, 0 for accepted, and what it can then do to a
/// proposal.
fn expected() -> Vec<(&'static str, Vec<u8>, Vec<Proposal>)> {
    use Proposal::{Closed, Kept, None, Opened, Replaced};
    let plan = [1, 2, 9, 10, 11, 12];
    let turned = [1, 2, 9, 10, 11, 12, 15];
    vec![
        ("load roster", vec![0], vec![None, Closed]),
        (
            "load roster",
            vec![1, 2, 3, 4, 5, 6, 7, 8, 9, 18],
            vec![None, Kept],
        ),
        ("load plan", vec![0], vec![None, Closed]),
        ("load plan", plan.to_vec(), vec![None, Kept]),
        ("propose", vec![0], vec![Opened, Replaced]),
        ("propose", vec![13, 14], vec![None]),
        ("propose", turned.to_vec(), vec![None, Kept]),
        ("commit", vec![0], vec![Closed]),
        ("commit", vec![13, 14, 20], vec![None]),
        ("leave", vec![0], vec![None, Kept, Closed]),
        ("leave", vec![15, 16], vec![None, Kept]),
        ("join", vec![0], vec![None, Closed]),
        ("join", vec![1, 3, 4, 5, 9, 15, 18], vec![None, Kept]),
        ("write roster", vec![0, 15], vec![None, Kept]),
        ("write plan", vec![0, 15], vec![None, Kept]),
        ("find", vec![0, 15], vec![None, Kept]),
        ("judge", vec![0, 15], vec![None, Kept]),
        ("compare", vec![0, 10, 15], vec![None, Kept]),
        ("blocking", vec![0], vec![None, Kept]),
        ("spread", vec![0, 15], vec![None, Kept]),
        ("plan to new", vec![0, 15], vec![None, Kept]),
        ("plan to old", vec![0, 19], vec![None, Kept]),
        ("plan to old", turned.to_vec(), vec![None]),
    ]
}

#[test]
fn the_held_plan_is_what_is_told() {
    let mut random = Random::new(207);
    let mut tally = Tally::default();
    for _ in 0..SEQUENCES {
        let rosters = rosters(&mut random);
        let mut session = Session {
            desk: Desk::default(),
            history: History::default(),
            committed: false,
            left_again: false,
        };
        for place in 0..CALLS {
            if place == UNLOADED {
                let event = Some(Event::LoadRoster);
                let load = |desk: Desk| desk.load_roster(&rosters[0]);
                session.call(&mut tally, "load roster", load, event);
            } else {
                call(&mut random, &mut tally, &mut session, &rosters);
            }
        }
    }
    for (what, count) in &tally.calls {
        println!("{what:?}: {count}");
    }
    println!("{:?}", tally.told);
    for (name, numbers, fates) in expected() {
        for number in numbers {
            for &fate in &fates {
                let count = tally.calls.get(&(name, number, fate));
                assert!(count.is_some(), "{name} {number} {fate:?}");
            }
        }
    }
    for what in [
        "left after a load",
        "left after a commit",
        "left with no plan held",
        "a plan dropped",
        "loaded after a commit",
        "the held plan committed",
        "left again between a proposal and its commit",
    ] {
        assert!(tally.told.contains_key(what), "{what}");
    }
}
