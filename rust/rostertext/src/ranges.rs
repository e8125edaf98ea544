//! Ranges of ranks as text, beside a roster: a line for a surveyor or a stand, and
//! in it entries of its list with the ranks that they may have.
//!
//! ```text
//! # stand 1 ranks surveyor 1 anywhere from 1 to 4, surveyor 2 second or third
//! stand 1: 1=1..4 2=2..3
//! surveyor 1: 1=1..2
//! ```
//!
//! An entry is named as in the roster's text, with its shift behind a stroke if it is
//! not the first. `2=3` is rank 3 and no other. An entry that is not named, and a
//! node without a line, has its rank in the roster. Lines may come in any order.

use std::fmt::Write;

use reference::limits::MAX_RANK;
use reference::ranges::{entries, settled, Range};
use reference::roster::{Pair, Roster, Side};

use crate::line::{self, Listed};
use crate::problem::{word, Problem, What};
use crate::text::written;

/// The ranges of a text, for each list entry in the roster's order.
pub fn parse_ranges(roster: &Roster, text: &str) -> Result<Vec<Range>, Problem> {
    let places = entries(roster);
    let mut ranges = settled(roster);
    let mut named = vec![false; places.len()];
    for (place, text) in (1..).zip(text.lines()) {
        let words = line::words(text);
        if words.is_empty() {
            continue;
        }
        let told = line::read_ranges(&words).and_then(|line| {
            for (entry, range) in line.ranges {
                let at = position(&places, line.side, line.number, entry)?;
                if named[at] {
                    let side = line.side;
                    return Err(What::EntryTwice { side, entry });
                }
                named[at] = true;
                ranges[at] = range;
            }
            Ok(())
        });
        told.map_err(|what| Problem { line: place, what })?;
    }
    Ok(ranges)
}

/// Where an entry of a node's list stands in the roster's order.
fn position(
    places: &[(Side, Pair)],
    side: Side,
    number: usize,
    entry: Listed,
) -> Result<usize, What> {
    let here = |&(own, pair): &(Side, Pair)| {
        let listed = pair.entry(side);
        own == side
            && usize::from(pair.end(side)) == number
            && (usize::from(listed.number), listed.shift) == (entry.number, entry.shift)
    };
    let found = places.iter().position(here);
    found.ok_or(What::NotListed {
        side,
        number,
        entry,
    })
}

/// A range as it is written: `2..4`, or `3` alone.
pub(crate) fn range(word: &str) -> Result<Range, What> {
    let (low, high) = word.split_once("..").unwrap_or((word, word));
    let [low, high] = [low, high].map(|word| line::number(Some(word), "in a range of ranks"));
    let (low, high) = (low?, high?);
    match (u8::try_from(low), u8::try_from(high)) {
        (Ok(low), Ok(high)) if 1 <= low && low <= high && high <= MAX_RANK => {
            Ok(Range { low, high })
        }
        _ => Err(What::NoRange { low, high }),
    }
}

/// The text of ranges: a line for each node with an entry whose rank is not the
/// roster's alone.
pub fn print_ranges(roster: &Roster, ranges: &[Range]) -> String {
    let mut text = String::new();
    let mut last = None;
    let places = entries(roster);
    let known = settled(roster);
    for ((&(side, pair), range), known) in places.iter().zip(ranges).zip(known) {
        if *range == known {
            continue;
        }
        let node = (side, pair.end(side));
        if last != Some(node) {
            let line = if last.is_some() { "\n" } else { "" };
            write!(text, "{line}{} {}:", word(side), node.1).expect("a string takes all");
            last = Some(node);
        }
        let entry = written(pair.entry(side));
        let Range { low, high } = *range;
        let told = if low == high {
            format!(" {entry}={low}")
        } else {
            format!(" {entry}={low}..{high}")
        };
        text.push_str(&told);
    }
    if last.is_some() {
        text.push('\n');
    }
    text
}
