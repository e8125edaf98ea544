//! A session at the desk, told line by line: each line of session.txt, what the call
//! for it answers, and what the desk then holds, with verdict, blocking pair, days and
//! the votes of an open proposal. The page for crew leaders must show the same.

use std::error::Error;
use std::fs;
use std::io::{self, Write};
use std::path::Path;

use planner::{
    Desk, Facing, Found, Node, Pairing, Refusal, Step, Verdict, Winner, DIARY_RECORDS, LEFT_BYTES,
    PAIRING_BYTES, PAIR_BYTES, PLAN_BYTES,
};

const SESSION: &str = include_str!("session.txt");

/// The desk, and what the finder wrote last.
struct Session {
    desk: Desk,
    found: Option<Found>,
    diary: [Step; DIARY_RECORDS],
    left: [u8; LEFT_BYTES],
    plan: [u8; PLAN_BYTES],
    rival: [u8; PLAN_BYTES],
}

/// Tells the whole session.
pub fn tell(out: &mut impl Write) -> Result<(), Box<dyn Error>> {
    let mut session = Session {
        desk: Desk::open(),
        found: None,
        diary: [Step::default(); DIARY_RECORDS],
        left: [0; LEFT_BYTES],
        plan: [0; PLAN_BYTES],
        rival: [0; PLAN_BYTES],
    };
    for line in SESSION.lines().filter(|line| !line.starts_with('#')) {
        writeln!(out, "> {line}")?;
        let words: Vec<&str> = line.split_whitespace().collect();
        match session.enter(&words)? {
            Err(refusal) => {
                let group = format!("{:?}", refusal.group).to_lowercase();
                writeln!(out, "refused {} {group}", refusal.number)?;
            }
            Ok(true) => session.tell_found(out)?,
            Ok(false) => {}
        }
        session.tell_desk(out)?;
    }
    Ok(())
}

impl Session {
    /// Makes the call of a line; true if the finder's answer is another.
    fn enter(&mut self, words: &[&str]) -> Result<Result<bool, Refusal>, Box<dyn Error>> {
        let (forward, back) = (&mut [0; PAIRING_BYTES], &mut [0; PAIRING_BYTES]);
        Ok(match words {
            ["open", name] => self.open(&fs::read(sample(name))?),
            ["hold", pairs @ ..] => {
                let file = self.file(pairs)?;
                self.desk.load_plan(&file).map(|()| false)
            }
            ["propose", pairs @ ..] => {
                let file = self.file(pairs)?;
                self.desk.propose(&file, forward, back).map(|_| false)
            }
            ["commit"] => self.desk.commit().map(|()| false),
            ["join", quota, list @ ..] => self.join(quota.parse()?, list)?,
            ["leave", number] => self.leave(number.parse()?),
            _ => return Err(format!("no call: {words:?}").into()),
        })
    }

    fn open(&mut self, file: &[u8]) -> Result<bool, Refusal> {
        self.desk.load_roster(file)?;
        let (left, plan, rival) = (&mut self.left, &mut self.plan, &mut self.rival);
        self.found = Some(self.desk.find(&mut self.diary, left, plan, rival)?);
        Ok(true)
    }

    fn join(&mut self, quota: u8, list: &[&str]) -> Result<Result<bool, Refusal>, Box<dyn Error>> {
        let mut file = vec![u8::try_from(list.len())?];
        for word in list {
            file.extend(entry(word)?);
        }
        let (left, plan, rival) = (&mut self.left, &mut self.plan, &mut self.rival);
        let found = self
            .desk
            .join(quota, &file, &mut self.diary, left, plan, rival);
        Ok(found.map(|found| self.changed(found)))
    }

    fn leave(&mut self, number: u8) -> Result<bool, Refusal> {
        let (left, plan, rival) = (&mut self.left, &mut self.plan, &mut self.rival);
        let found = self
            .desk
            .leave(number, &mut self.diary, left, plan, rival)?;
        Ok(self.changed(found))
    }

    fn changed(&mut self, found: Found) -> bool {
        self.found = Some(found);
        true
    }

    /// The plan's file of a line.
    fn file(&self, pairs: &[&str]) -> Result<Vec<u8>, Box<dyn Error>> {
        match pairs {
            ["found"] => return Ok(self.written().0.to_vec()),
            ["rival"] => return Ok(self.written().1.to_vec()),
            _ => {}
        }
        let mut ends = Vec::new();
        for pair in pairs {
            let (surveyor, behind) = pair.split_once('-').ok_or("a pair has a dash")?;
            let [stand, shift] = entry(behind)?;
            ends.push([surveyor.parse()?, stand, shift]);
        }
        ends.sort_unstable();
        let mut file = vec![u8::try_from(ends.len())?];
        file.extend(ends.into_iter().flatten());
        Ok(file)
    }

    /// The plan or candidate that the finder wrote last, and the rival.
    fn written(&self) -> (&[u8], &[u8]) {
        let (plan, rival) = match self.found {
            Some(Found::Plan { plan, .. }) => (plan, 0),
            Some(Found::Rivalled { plan, rival, .. }) => (plan, rival),
            Some(Found::Left { .. }) | None => (0, 0),
        };
        (&self.plan[..plan], &self.rival[..rival])
    }

    /// The finder's answer as the program prints it.
    fn tell_found(&self, out: &mut impl Write) -> io::Result<()> {
        let Some(found) = self.found else {
            return Ok(());
        };
        let (Found::Plan { steps, .. } | Found::Left { steps, .. } | Found::Rivalled { steps, .. }) =
            found;
        for step in &self.diary[..steps] {
            let fate = if step.fate == 1 { "fix" } else { "strike" };
            let (surveyor, stand) = (step.surveyor, step.stand);
            writeln!(
                out,
                "{fate} {surveyor} {stand} {} {}",
                step.shift, step.rule
            )?;
        }
        match found {
            Found::Plan { .. } => tell_plan(out, "plan", self.written().0),
            Found::Left { pairs, .. } => {
                tell_pairs(out, "none left", &self.left[..PAIR_BYTES * pairs])
            }
            Found::Rivalled { vote, .. } => {
                writeln!(out, "none rivalled {vote}")?;
                let (candidate, rival) = self.written();
                tell_plan(out, "candidate", candidate)?;
                tell_plan(out, "rival", rival)
            }
        }
    }

    /// What the desk holds, and what it answers of it.
    fn tell_desk(&self, out: &mut impl Write) -> Result<(), Box<dyn Error>> {
        let mut held = [0; PLAN_BYTES];
        let Ok(length) = self.desk.write_plan(&mut held) else {
            writeln!(out, "holds no plan")?;
            return Ok(());
        };
        let held = &held[..length];
        tell_plan(out, "holds", held)?;
        let (mut rival, mut pairing) = ([0; PLAN_BYTES], [0; PAIRING_BYTES]);
        match self.desk.judge(&mut rival, &mut pairing)? {
            Verdict::Strong => writeln!(out, "strong")?,
            Verdict::Popular { vote, .. } => writeln!(out, "popular {vote}")?,
            Verdict::Beaten { vote, .. } => writeln!(out, "beaten {vote}")?,
        }
        match self.desk.blocking()? {
            Some((surveyor, stand, shift)) => writeln!(out, "blocking {surveyor} {stand} {shift}")?,
            None => writeln!(out, "blocking none")?,
        }
        for (day, entries) in (1..).zip(self.desk.sheet()?.days) {
            let pairs: Vec<u8> = entries
                .iter()
                .flat_map(|entry| [entry.surveyor, entry.stand, entry.shift])
                .collect();
            tell_pairs(out, &format!("day {day}:"), &pairs)?;
        }
        self.tell_proposal(out, held)
    }

    /// The votes of an open proposal, who wins, and who faced whom: what a desk like
    /// this one would hold behind a commit, against what this one holds.
    fn tell_proposal(&self, out: &mut impl Write, held: &[u8]) -> Result<(), Box<dyn Error>> {
        let mut ahead = self.desk.clone();
        if ahead.commit().is_err() {
            return Ok(());
        }
        let mut proposed = [0; PLAN_BYTES];
        let length = ahead.write_plan(&mut proposed)?;
        let proposed = &proposed[..length];
        tell_plan(out, "proposal", proposed)?;
        let (mut forward, mut back) = ([0; PAIRING_BYTES], [0; PAIRING_BYTES]);
        let compared = self.desk.compare(proposed, held, &mut forward, &mut back);
        let votes = compared.outcome?;
        let winner = match votes.winner {
            Winner::First => "first",
            Winner::Second => "second",
            Winner::Both => "both",
            Winner::Neither => "neither",
        };
        writeln!(out, "votes {} {} {winner}", votes.first, votes.second)?;
        for pairings in [forward, back] {
            for pairing in self.desk.pairings(&pairings)? {
                tell_facing(out, &pairing)?;
            }
        }
        Ok(())
    }
}

/// Who faced whom at a node, if it is not alike at every place.
fn tell_facing(out: &mut impl Write, pairing: &Pairing) -> io::Result<()> {
    let rank = |rank: Option<u8>| rank.unwrap_or(33);
    if pairing.places.iter().all(|place| place.own == place.other) {
        return Ok(());
    }
    let place = |place: &Facing| format!("{} {}", rank(place.own), rank(place.other));
    let places: Vec<String> = pairing.places.iter().map(place).collect();
    let node = match pairing.node {
        Node::Surveyor(number) => format!("surveyor {number}"),
        Node::Stand(number) => format!("stand {number}"),
    };
    writeln!(out, "faced {node}: {}", places.join(", "))
}

fn tell_plan(out: &mut impl Write, name: &str, plan: &[u8]) -> io::Result<()> {
    tell_pairs(out, name, &plan[1..])
}

fn tell_pairs(out: &mut impl Write, name: &str, pairs: &[u8]) -> io::Result<()> {
    writeln!(out, "{name} {}", pairs.len() / PAIR_BYTES)?;
    for pair in pairs.chunks_exact(PAIR_BYTES) {
        writeln!(out, "{} {} {}", pair[0], pair[1], pair[2])?;
    }
    Ok(())
}

/// A number, and behind a stroke the shift.
fn entry(word: &str) -> Result<[u8; 2], Box<dyn Error>> {
    let (number, shift) = word.split_once('/').unwrap_or((word, "1"));
    Ok([number.parse()?, shift.parse()?])
}

fn sample(name: &str) -> impl AsRef<Path> {
    let samples = Path::new(env!("CARGO_MANIFEST_DIR")).join("../../samples");
    samples.join(format!("{name}.roster"))
}

fn main() -> Result<(), Box<dyn Error>> {
    tell(&mut io::stdout())
}
