//! A morning at the desk: a roster is loaded, its strongly popular plan is
//! found, two plans are compared, and the better one is held, judged and looked
//! at for a blocking pair.

use std::error::Error;
use std::io::{self, Write};

use planner::{Desk, Facing, Found, Pairing, Step};
use planner::{DIARY_RECORDS, LEFT_BYTES, PAIRING_BYTES, PLAN_BYTES};

/// Tells the morning.
pub fn tell(out: &mut impl Write) -> Result<(), Box<dyn Error>> {
    // two surveyors rank one stand, in shift 1; the stand ranks 1 before 2
    let roster = [
        2, 1, 1, 1, 1, 2, 0, 1, 1, 1, 1, 1, 1, 2, 0, 2, 0, 1, 1, 2, 1,
    ];
    let (first, second) = ([1, 1, 1, 1], [1, 2, 1, 1]);

    let mut desk = Desk::open();
    desk.load_roster(&roster)?;

    let mut diary = [Step::default(); DIARY_RECORDS];
    let mut plan = [0; PLAN_BYTES];
    let found = desk.find(
        &mut diary,
        &mut [0; LEFT_BYTES],
        &mut plan,
        &mut [0; PLAN_BYTES],
    )?;
    writeln!(out, "{found:?}")?;
    if let Found::Plan {
        steps,
        plan: length,
    } = found
    {
        writeln!(out, "steps: {:?}", &diary[..steps])?;
        writeln!(out, "plan: {:?}", &plan[..length])?;
    }

    let (mut forward, mut back) = ([0; PAIRING_BYTES], [0; PAIRING_BYTES]);
    let compared = desk.compare(&first, &second, &mut forward, &mut back);
    writeln!(out, "{:?}", compared.outcome?)?;
    writeln!(out, "the winner's pairs: {:?}", compared.part)?;
    for pairing in desk.pairings(&forward)? {
        writeln!(out, "who faced whom: {}", faced(&pairing))?;
    }

    desk.load_plan(&first)?;
    let verdict = desk.judge(&mut [0; PLAN_BYTES], &mut [0; PAIRING_BYTES])?;
    writeln!(out, "verdict: {verdict:?}")?;
    writeln!(out, "blocking pair: {:?}", desk.blocking()?)?;
    let refusal = desk.load_plan(&[1, 1, 2, 1]).unwrap_err();
    writeln!(out, "{}: {refusal}", refusal.number)?;
    writeln!(out, "blocking pair: {:?}", desk.blocking()?)?;
    Ok(())
}

/// A node and its places: the rank that each has in the first plan, against the
/// one that it faces in the second.
fn faced(pairing: &Pairing) -> String {
    let rank = |rank: Option<u8>| rank.map_or("empty".to_string(), |rank| rank.to_string());
    let place = |place: &Facing| format!("{} against {}", rank(place.own), rank(place.other));
    let places: Vec<String> = pairing.places.iter().map(place).collect();
    format!("{:?}: {}", pairing.node, places.join(", "))
}

fn main() -> Result<(), Box<dyn Error>> {
    tell(&mut io::stdout())
}
