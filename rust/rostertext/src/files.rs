//! Files of the two forms, turned into each other. Problems are told in plain words.

use reference::layout::Layout;
use reference::ranges;
use reference::roster::{self, Roster};

use crate::ranges::{parse_ranges, print_ranges};
use crate::text::{parse, print};

/// The roster bytes of a text's file.
pub fn pack(input: &[u8]) -> Result<Vec<u8>, String> {
    let text = std::str::from_utf8(input).map_err(|_| "the input is no text")?;
    let roster = parse(text).map_err(|problem| problem.to_string())?;
    Ok(roster::write(&roster))
}

/// The text of a roster's file.
pub fn unpack(input: &[u8]) -> Result<Vec<u8>, String> {
    Ok(print(&read(input)?).into_bytes())
}

/// The roster of a roster's file. One from before the shifts is refused, and told as
/// such.
fn read(input: &[u8]) -> Result<Roster, String> {
    roster::read(input).map_err(|refusal| {
        let (number, group) = (refusal.number(), refusal.group());
        let hint = match roster::read_by(Layout::Old, input) {
            Ok(_) => "; it is one of a season before the shifts, which `seasons to-new` turns",
            Err(_) => "",
        };
        format!("the input is no roster: refused {number} {group}, {refusal}{hint}")
    })
}

/// The bytes of ranges from a text's file, for the roster of a roster's file.
pub fn pack_ranges(roster: &[u8], input: &[u8]) -> Result<Vec<u8>, String> {
    let roster = read(roster)?;
    let text = std::str::from_utf8(input).map_err(|_| "the input is no text")?;
    let ranges = parse_ranges(&roster, text).map_err(|problem| problem.to_string())?;
    Ok(ranges::write(&ranges))
}

/// The text of a file of ranges, for the roster of a roster's file.
pub fn unpack_ranges(roster: &[u8], input: &[u8]) -> Result<Vec<u8>, String> {
    let roster = read(roster)?;
    let ranges = ranges::read(&roster, input).map_err(|refusal| {
        let (number, group) = (refusal.number(), refusal.group());
        format!("the input is no ranges: refused {number} {group}, {refusal}")
    })?;
    Ok(print_ranges(&roster, &ranges).into_bytes())
}
