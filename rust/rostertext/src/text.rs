//! From the text of a roster to the roster, and back.

use std::fmt::Write;

use reference::limits::{MAX_LIST, MAX_NODES, MAX_QUOTA_SUM};
use reference::roster::{narrow, Entry, List, Node, Roster, Side, SIDES};

use crate::line::{self, Line, Listed, PLAIN_SHIFT};
use crate::problem::{word, Problem, What};

/// A line, with the place where it stands in the text.
struct Placed {
    place: usize,
    line: Line,
}

impl Placed {
    fn problem(&self, what: What) -> Problem {
        Problem {
            line: self.place,
            what,
        }
    }

    fn entries(&self) -> impl Iterator<Item = Listed> + '_ {
        self.line.strict.iter().chain(&self.line.tied).copied()
    }
}

/// The roster of a text. The lines are judged one by one from the top, then
/// the lists, then whether each pair stands in both lists.
pub fn parse(text: &str) -> Result<Roster, Problem> {
    let sides = split(text)?;
    for side in SIDES {
        for placed in &sides[side as usize] {
            check_list(placed, sides[side.other() as usize].len())?;
        }
    }
    for side in SIDES {
        for placed in &sides[side as usize] {
            check_answered(placed, &sides[side.other() as usize])?;
        }
    }
    let [surveyors, stands] = sides.map(|lines| lines.into_iter().map(node).collect());
    Ok(Roster::new(surveyors, stands).expect("both sides list the same pairs"))
}

/// The lines of each side, numbered in order and with quotas within the
/// limits.
fn split(text: &str) -> Result<[Vec<Placed>; 2], Problem> {
    let mut sides = [Vec::new(), Vec::new()];
    let mut sums = [0, 0];
    for (place, text) in (1..).zip(text.lines()) {
        let words = line::words(text);
        if words.is_empty() {
            continue;
        }
        let problem = |what| Problem { line: place, what };
        let line = line::read(&words).map_err(problem)?;
        let side = line.side;
        let next = sides[side as usize].len() + 1;
        if line.number != next {
            let found = line.number;
            return Err(problem(What::WrongNumber { side, found, next }));
        }
        if next > MAX_NODES {
            return Err(problem(What::TooManyNodes(side)));
        }
        sums[side as usize] += usize::from(line.quota);
        if sums[side as usize] > MAX_QUOTA_SUM {
            return Err(problem(What::QuotasTooLarge(side)));
        }
        sides[side as usize].push(Placed { place, line });
    }
    Ok(sides)
}

/// Whether the entries are not too many, all of them numbers of the other side,
/// and none twice in one shift.
fn check_list(placed: &Placed, count: usize) -> Result<(), Problem> {
    let side = placed.line.side;
    let length = placed.entries().count();
    if length > MAX_LIST {
        return Err(placed.problem(What::ListTooLong(length)));
    }
    let mut seen = Vec::new();
    for listed in placed.entries() {
        let entry = listed.number;
        if entry == 0 || entry > count {
            return Err(placed.problem(What::EntryOutOfRange { side, entry, count }));
        }
        if seen.contains(&listed) {
            let entry = listed;
            return Err(placed.problem(What::EntryTwice { side, entry }));
        }
        seen.push(listed);
    }
    Ok(())
}

/// Whether all that the node lists also list the node, in the same shifts.
fn check_answered(placed: &Placed, others: &[Placed]) -> Result<(), Problem> {
    let Line { side, number, .. } = placed.line;
    for entry in placed.entries() {
        let own = Listed { number, ..entry };
        if !others[entry.number - 1].entries().any(|back| back == own) {
            return Err(placed.problem(What::OneSideOnly {
                side,
                number,
                entry,
            }));
        }
    }
    Ok(())
}

/// A node of a roster. The order inside a tie says nothing in a text; in a
/// roster a tie ascends.
fn node(placed: Placed) -> Node {
    let entry = |listed: Listed| Entry {
        number: narrow(listed.number),
        shift: listed.shift,
    };
    let entries = |listed: Vec<Listed>| listed.into_iter().map(entry).collect::<Vec<Entry>>();
    let strict = entries(placed.line.strict);
    let mut tied = entries(placed.line.tied);
    tied.sort_unstable();
    Node {
        quota: placed.line.quota,
        list: List { strict, tied },
    }
}

/// The text of a roster: its surveyors, then its stands, each with its quota.
pub fn print(roster: &Roster) -> String {
    let mut text = String::new();
    for side in SIDES {
        for (number, node) in (1..=MAX_NODES).zip(roster.nodes(side)) {
            print_node(&mut text, side, number, node).expect("a string takes all text");
        }
    }
    text
}

fn print_node(text: &mut String, side: Side, number: usize, node: &Node) -> std::fmt::Result {
    write!(text, "{} {number} quota {}:", word(side), node.quota)?;
    for &entry in &node.list.strict {
        write!(text, " {}", written(entry))?;
    }
    for (index, &entry) in node.list.tied.iter().enumerate() {
        let before = if index == 0 { " [" } else { " " };
        write!(text, "{before}{}", written(entry))?;
    }
    let end = if node.list.tied.is_empty() { "" } else { "]" };
    writeln!(text, "{end}")
}

/// An entry as a person writes it: the plain shift is left out.
pub(crate) fn written(Entry { number, shift }: Entry) -> String {
    if shift == PLAIN_SHIFT {
        number.to_string()
    } else {
        format!("{number}/{shift}")
    }
}
