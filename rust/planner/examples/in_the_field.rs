//! Nine days in the field: surveyors join and leave, some entries are mistaken,
//! and each day the planner says what has changed. Pairs are written
//! surveyor-stand, with the shift behind a stroke if it is not the first.

use std::error::Error;
use std::io::{self, Write};

use planner::{
    Desk, Found, Refusal, Step, Verdict, DIARY_RECORDS, LEFT_BYTES, PAIRING_BYTES, PAIR_BYTES,
    PLAN_BYTES,
};
use Event::{Join, Leave};

/// Three surveyors and four stands; all entries are in shift 1.
#[rustfmt::skip]
const ROSTER: [u8; 64] = [
    3, 2, 1, 2, // surveyors 1 and 3 measure two stands, surveyor 2 one
    4, 1, 2, 1, 2, // stands 2 and 4 are measured twice
    10, 0, // what each surveyor ranks
    3, 3, 1, 4, 1, 2, 1,
    4, 2, 1, 3, 1, 4, 1, 1, 1,
    3, 1, 1, 4, 1, 3, 1,
    10, 0, // and each stand
    2, 0, 2, 1, 3, 1,
    0, 2, 1, 1, 2, 1,
    3, 0, 3, 1, 2, 1, 1, 1,
    3, 0, 2, 1, 1, 1, 3, 1,
];

/// A joiner's quota and stand list, or a leaver's number.
enum Event {
    Join(u8, &'static [u8]),
    Leave(u8),
}

/// What happens from the second day on.
#[rustfmt::skip]
const DAYS: [(&str, Event); 8] = [
    ("a surveyor joins, for one of the stands 4, 2, 1", Join(1, &[3, 4, 1, 2, 1, 1, 1])),
    ("a surveyor would join and ranks stand 5, but there are four", Join(1, &[2, 4, 1, 5, 1])),
    ("surveyor 1 leaves", Leave(1)),
    ("the same is entered once more", Leave(1)),
    ("a surveyor joins, for two of the stands 1, 2, 4, 3", Join(2, &[4, 1, 1, 2, 1, 4, 1, 3, 1])),
    ("surveyor 9 is entered as leaving, but there are five", Leave(9)),
    ("surveyor 2 leaves", Leave(2)),
    ("a surveyor joins, for stand 3", Join(1, &[1, 3, 1])),
];

/// The desk and the buffers that it is lent.
struct Planner {
    desk: Desk,
    diary: [Step; DIARY_RECORDS],
    left: [u8; LEFT_BYTES],
    plan: [u8; PLAN_BYTES],
    rival: [u8; PLAN_BYTES],
}

impl Planner {
    fn open() -> Planner {
        Planner {
            desk: Desk::open(),
            diary: [Step::default(); DIARY_RECORDS],
            left: [0; LEFT_BYTES],
            plan: [0; PLAN_BYTES],
            rival: [0; PLAN_BYTES],
        }
    }

    /// Loads the roster, and the answer comes from the finder.
    fn start(&mut self) -> Result<Found, Refusal> {
        self.desk.load_roster(&ROSTER)?;
        let (left, plan, rival) = (&mut self.left, &mut self.plan, &mut self.rival);
        self.desk.find(&mut self.diary, left, plan, rival)
    }

    /// Changes the roster, and the finder's answer comes with it.
    fn enter(&mut self, event: &Event) -> Result<Found, Refusal> {
        let (diary, left) = (&mut self.diary, &mut self.left);
        let (plan, rival) = (&mut self.plan, &mut self.rival);
        match *event {
            Join(quota, list) => self.desk.join(quota, list, diary, left, plan, rival),
            Leave(number) => self.desk.leave(number, diary, left, plan, rival),
        }
    }

    /// An answer in words.
    fn answer(&self, found: Found) -> String {
        match found {
            Found::Plan { plan, .. } => {
                format!("strongly popular is {}", listed(&self.plan[1..plan]))
            }
            Found::Left { pairs, .. } => {
                let left = listed(&self.left[..PAIR_BYTES * pairs]);
                format!("no plan is strongly popular: the pairs {left} are left")
            }
            Found::Rivalled {
                vote, plan, rival, ..
            } => {
                let plan = listed(&self.plan[1..plan]);
                let rival = listed(&self.rival[1..rival]);
                format!("no plan is strongly popular: {plan} has vote {vote} against {rival}")
            }
        }
    }

    /// The held plan in words, with the verdict on it.
    fn held(&self) -> Result<String, Refusal> {
        let mut plan = [0; PLAN_BYTES];
        let length = self.desk.write_plan(&mut plan)?;
        let (mut rival, mut pairing) = ([0; PLAN_BYTES], [0; PAIRING_BYTES]);
        let verdict = match self.desk.judge(&mut rival, &mut pairing)? {
            Verdict::Strong => "strongly popular",
            Verdict::Popular { .. } => "popular",
            Verdict::Beaten { .. } => "beaten by another",
        };
        let pairs = listed(&plan[1..length]);
        Ok(format!("the held plan is {pairs}, {verdict}"))
    }

    /// Holds the plan that was answered, if one was.
    fn take(&mut self, found: Found, out: &mut impl Write) -> Result<(), Box<dyn Error>> {
        if let Found::Plan { plan, .. } = found {
            self.desk.load_plan(&self.plan[..plan])?;
            writeln!(out, "  it is held from now on")?;
        }
        Ok(())
    }
}

fn listed(pairs: &[u8]) -> String {
    let words: Vec<String> = pairs.chunks_exact(PAIR_BYTES).map(named).collect();
    words.join(" ")
}

/// A pair in words; shift 1 is not told.
fn named(pair: &[u8]) -> String {
    match pair[2] {
        1 => format!("{}-{}", pair[0], pair[1]),
        shift => format!("{}-{}/{shift}", pair[0], pair[1]),
    }
}

/// The two files that a desk holds.
fn files(desk: &Desk) -> (&[u8], &[u8]) {
    (&desk.roster[..desk.roster_len], &desk.plan[..desk.plan_len])
}

/// Tells what a day's event changes.
fn tell_event(
    planner: &mut Planner,
    event: &Event,
    out: &mut impl Write,
) -> Result<(), Box<dyn Error>> {
    let before = planner.desk.clone();
    let entered = planner.enter(event);
    if let Err(refusal) = entered {
        writeln!(out, "  refused by number {}: {refusal}", refusal.number)?;
    }
    if files(&planner.desk) == files(&before) {
        writeln!(out, "  nothing changes")?;
        return Ok(());
    }
    let found = entered?;
    if let Join(..) = event {
        writeln!(out, "  the joiner is surveyor {}", planner.desk.roster[0])?;
    }
    writeln!(out, "  {}", planner.held()?)?;
    writeln!(out, "  {}", planner.answer(found))?;
    planner.take(found, out)
}

/// Tells all nine days.
pub fn tell(out: &mut impl Write) -> Result<(), Box<dyn Error>> {
    let mut planner = Planner::open();
    let found = planner.start()?;
    writeln!(out, "day 1: three surveyors set out to four stands")?;
    writeln!(out, "  {}", planner.answer(found))?;
    planner.take(found, out)?;
    for (day, (what, event)) in (2..).zip(&DAYS) {
        writeln!(out, "day {day}: {what}")?;
        tell_event(&mut planner, event, out)?;
    }
    Ok(())
}

fn main() -> Result<(), Box<dyn Error>> {
    tell(&mut io::stdout())
}
