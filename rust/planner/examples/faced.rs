//! Two plans at a stand that takes three of six surveyors, and who faced whom in
//! their votes.

use std::error::Error;
use std::io::{self, Write};

use planner::{Desk, Node, Pairing, PAIRING_BYTES};

/// Six surveyors of quota 1 have one stand each on their lists, which takes three
/// of them and ranks them 1 to 6; all in shift 1.
#[rustfmt::skip]
const ROSTER: [u8; 45] = [
    6, 1, 1, 1, 1, 1, 1,
    1, 3,
    6, 0, 1, 1, 1, 1, 1, 1, 1, 1, 1, 1, 1, 1, 1, 1, 1, 1, 1, 1,
    6, 0, 6, 0, 1, 1, 2, 1, 3, 1, 4, 1, 5, 1, 6, 1,
];

/// Tells the comparison.
pub fn tell(out: &mut impl Write) -> Result<(), Box<dyn Error>> {
    let mut desk = Desk::open();
    desk.load_roster(&ROSTER)?;
    let first = [3, 1, 1, 1, 3, 1, 1, 6, 1, 1];
    let second = [3, 2, 1, 1, 4, 1, 1, 5, 1, 1];
    let (mut forward, mut back) = ([0; PAIRING_BYTES], [0; PAIRING_BYTES]);
    let compared = desk.compare(&first, &second, &mut forward, &mut back);
    let votes = compared.outcome?;
    writeln!(
        out,
        "surveyors 1, 3, 6 against 2, 4, 5: vote {} and {}",
        votes.first, votes.second
    )?;
    writeln!(out, "at the stand: {}", at_stand(&desk.pairings(&forward)?))?;
    writeln!(out, "and back: {}", at_stand(&desk.pairings(&back)?))?;
    Ok(())
}

/// The stand's places, each with the rank that it faces.
fn at_stand(pairings: &[Pairing]) -> String {
    let own = pairings
        .iter()
        .filter(|pairing| pairing.node == Node::Stand(1));
    let rank = |rank: Option<u8>| rank.map_or("an empty place".into(), |rank| rank.to_string());
    let places = own.flat_map(|pairing| &pairing.places);
    let told =
        places.map(|place| format!("rank {} against {}", rank(place.own), rank(place.other)));
    told.collect::<Vec<String>>().join(", ")
}

fn main() -> Result<(), Box<dyn Error>> {
    tell(&mut io::stdout())
}
