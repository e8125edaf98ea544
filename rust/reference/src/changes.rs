//! Changes in the field: a surveyor joins a roster, a surveyor leaves it, and
//! what is then left of a plan.

use crate::layout::Layout;
use crate::limits::{MAX_LIST, MAX_NODES, MAX_QUOTA, MAX_QUOTA_SUM};
use crate::plan::Plan;
use crate::reader::{within, Reader};
use crate::refusal::Refusal;
use crate::roster::{self, narrow, Entry, List, Node, Roster, Side};

/// The roster with one surveyor more, who takes the number after the highest.
/// `list` is one stand list in a file's bytes: a length, then stands with their
/// shifts, best first. Each listed stand enters the joiner at the end of its
/// tie, and may then have no more entries than any list.
pub fn join(roster: &Roster, quota: u8, list: &[u8]) -> Result<Roster, Refusal> {
    if quota > MAX_QUOTA {
        return Err(Refusal::QuotaAboveLimit);
    }
    if !has_place(roster, quota) {
        return Err(Refusal::NoPlaceForJoiner);
    }
    let list = read_list(roster, list)?;
    let number = narrow(roster.nodes(Side::Surveyors).len() + 1);
    let mut stands = roster.nodes(Side::Stands).to_vec();
    enter(&mut stands, number, &list);
    for stand in &stands {
        within(stand.list.length(), MAX_LIST)?;
    }
    let mut surveyors = roster.nodes(Side::Surveyors).to_vec();
    surveyors.push(Node { quota, list });
    Ok(within_the_rules(surveyors, stands))
}

/// Enters a joiner at the end of the ties of the listed stands, at each stand in
/// the order of the shifts, whatever the joiner's own order.
fn enter(stands: &mut [Node], joiner: u8, list: &List) {
    let mut entries: Vec<Entry> = list.entries().collect();
    entries.sort_unstable();
    for Entry { number, shift } in entries {
        let tied = &mut stands[usize::from(number) - 1].list.tied;
        tied.push(Entry {
            number: joiner,
            shift,
        });
    }
}

/// Whether a number is free and the quotas with the joiner's stay within their
/// sum. A leaver's number is not free, and the quota of a leaver is 0.
fn has_place(roster: &Roster, quota: u8) -> bool {
    let surveyors = roster.nodes(Side::Surveyors);
    let quotas = surveyors.iter().map(|node| usize::from(node.quota));
    surveyors.len() < MAX_NODES && quotas.sum::<usize>() + usize::from(quota) <= MAX_QUOTA_SUM
}

/// The joiner's list, checked as a surveyor's list of the roster, and nothing
/// behind it.
fn read_list(roster: &Roster, file: &[u8]) -> Result<List, Refusal> {
    let mut reader = Reader::new(file);
    let stands = roster.nodes(Side::Stands).len();
    let list = roster::read_list(&mut reader, Layout::New, Side::Surveyors, stands)?;
    reader.end()?;
    Ok(list)
}

/// The roster without the pairs of one surveyor, who keeps the number, with
/// quota 0 and an empty list.
pub fn leave(roster: &Roster, number: u8) -> Result<Roster, Refusal> {
    let mut surveyors = roster.nodes(Side::Surveyors).to_vec();
    let place = usize::from(number).checked_sub(1);
    let leaver = place.and_then(|place| surveyors.get_mut(place));
    *leaver.ok_or(Refusal::NotASurveyor)? = Node {
        quota: 0,
        list: List::default(),
    };
    let mut stands = roster.nodes(Side::Stands).to_vec();
    for Node { list, .. } in &mut stands {
        list.strict.retain(|entry| entry.number != number);
        list.tied.retain(|entry| entry.number != number);
    }
    Ok(within_the_rules(surveyors, stands))
}

/// Both changes keep every rule of a roster.
fn within_the_rules(surveyors: Vec<Node>, stands: Vec<Node>) -> Roster {
    Roster::new(surveyors, stands).expect("both sides list the same pairs")
}

/// The pairs of a plan that the changed roster still has: all of them after a
/// join, those of the others after a leave.
pub fn carried(before: &Roster, after: &Roster, plan: &Plan) -> Plan {
    let pairs = plan.pairs(before);
    pairs.filter_map(|pair| after.index_of(pair)).collect()
}
