//! Stored in walking order (W-214): a file is a route, a count byte and stand
//! numbers, and then a roster. Storing renumbers and reorders the roster's stands by
//! the route, the first named becoming 1 and so on, and keeps the route in front;
//! unstoring gives the original bytes.

use crate::lent::{enough, put};
use crate::limits::{MAX_NODES, MAX_STORED_BYTES};
use crate::plan::Plan;
use crate::reader::Reader;
use crate::refusal::Refusal;
use crate::roster::{self, narrow, Entry, List, Node, Pair, Roster, Side};

/// Writes a file with its roster's stands in the route's order, and tells its length.
pub fn store(file: &[u8], out: &mut [u8]) -> Result<usize, Refusal> {
    turned(file, out, walked)
}

/// Writes the file that a stored one comes from, and tells its length.
pub fn unstore(file: &[u8], out: &mut [u8]) -> Result<usize, Refusal> {
    turned(file, out, walked_back)
}

fn turned(
    file: &[u8],
    out: &mut [u8],
    turn: fn(&[u8], &Roster) -> Roster,
) -> Result<usize, Refusal> {
    enough(out.len(), MAX_STORED_BYTES)?;
    let (route, roster) = read(file)?;
    Ok(put(out, &write(&route, &turn(&route, &roster))))
}

/// The route and the roster of a file. The route's numbers are judged behind the
/// roster.
fn read(file: &[u8]) -> Result<(Vec<u8>, Roster), Refusal> {
    let mut reader = Reader::new(file);
    let count = reader.narrow_count(MAX_NODES)?;
    let route: Result<Vec<u8>, Refusal> = (0..count).map(|_| reader.narrow()).collect();
    let route = route?;
    let roster = roster::read(&file[1 + count..])?;
    if names_each(&route, &roster) {
        Ok((route, roster))
    } else {
        Err(Refusal::NotEachStandOnce)
    }
}

/// Whether the route, put in order, is 1, 2, and so on up to the last stand.
fn names_each(route: &[u8], roster: &Roster) -> bool {
    let mut numbers = route.to_vec();
    numbers.sort_unstable();
    numbers.into_iter().eq(1..=narrow(stands(roster)))
}

fn stands(roster: &Roster) -> usize {
    roster.nodes(Side::Stands).len()
}

/// The file of a route and a roster.
pub fn write(route: &[u8], roster: &Roster) -> Vec<u8> {
    let count = narrow(route.len());
    let route = std::iter::once(count).chain(route.iter().copied());
    route.chain(roster::write(roster)).collect()
}

/// The number of a stand along a route: its place there, from 1.
fn along(route: &[u8], stand: u8) -> u8 {
    let place = route.iter().position(|&named| named == stand);
    narrow(place.expect("the route names each stand") + 1)
}

/// A roster along a route that names each of its stands once.
pub fn walked(route: &[u8], roster: &Roster) -> Roster {
    let stands = route.iter().map(|&old| roster.node(Side::Stands, old));
    renumbered(roster, stands, |old| along(route, old))
}

/// The roster that, along the route, is this one.
pub fn walked_back(route: &[u8], roster: &Roster) -> Roster {
    let olds = 1..=narrow(stands(roster));
    let stands = olds.map(|old| roster.node(Side::Stands, along(route, old)));
    renumbered(roster, stands, |new| route[usize::from(new) - 1])
}

/// A roster with these stands in the place of its own, whose numbers the surveyors'
/// lists name by `number`. Their order is the surveyors' preference and stays.
fn renumbered<'a>(
    roster: &Roster,
    stands: impl Iterator<Item = &'a Node>,
    number: impl Fn(u8) -> u8,
) -> Roster {
    let entry = |&entry: &Entry| Entry {
        number: number(entry.number),
        ..entry
    };
    let surveyor = |node: &Node| Node {
        quota: node.quota,
        list: List {
            strict: node.list.strict.iter().map(entry).collect(),
            tied: Vec::new(),
        },
    };
    let surveyors = roster.nodes(Side::Surveyors).iter().map(surveyor);
    Roster::new(surveyors.collect(), stands.cloned().collect())
        .expect("both sides list the same pairs")
}

/// The pairs of a plan along a route, ascending.
pub fn pairs_along(route: &[u8], roster: &Roster, plan: &Plan) -> Vec<Pair> {
    let renumbered = plan.pairs(roster).map(|pair| Pair {
        stand: along(route, pair.stand),
        ..pair
    });
    let mut pairs: Vec<Pair> = renumbered.collect();
    pairs.sort_unstable();
    pairs
}
