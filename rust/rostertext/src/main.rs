//! `rostertext pack < text > bytes` turns a text roster into roster bytes,
//! `rostertext unpack < bytes > text` turns them back. `rostertext pack-ranges ROSTER`
//! and `rostertext unpack-ranges ROSTER` do the same with ranges of ranks, for the
//! roster whose bytes the file ROSTER has.

use std::fs;
use std::io::{self, Read, Write};
use std::process::ExitCode;

use rostertext::{pack, pack_ranges, unpack, unpack_ranges};

const USAGE: &str = "usage: rostertext pack < text > bytes, rostertext unpack < bytes > text,
       rostertext pack-ranges ROSTER < text > bytes, rostertext unpack-ranges ROSTER < bytes > text";

fn main() -> ExitCode {
    let arguments: Vec<String> = std::env::args().skip(1).collect();
    let words: Vec<&str> = arguments.iter().map(String::as_str).collect();
    let turned = match words[..] {
        ["pack"] => turn(pack),
        ["unpack"] => turn(unpack),
        ["pack-ranges", roster] => beside(roster, pack_ranges),
        ["unpack-ranges", roster] => beside(roster, unpack_ranges),
        _ => Err(USAGE.into()),
    };
    match turned {
        Ok(()) => ExitCode::SUCCESS,
        Err(problem) => {
            eprintln!("{problem}");
            ExitCode::FAILURE
        }
    }
}

/// Ranges from standard input to standard output, for the roster of a file.
fn beside(
    roster: &str,
    way: impl Fn(&[u8], &[u8]) -> Result<Vec<u8>, String>,
) -> Result<(), String> {
    let bytes = fs::read(roster).map_err(|problem| format!("{roster}: {problem}"))?;
    turn(|input| way(&bytes, input))
}

/// Standard input to standard output by one of the ways; on a problem nothing is
/// written.
fn turn(way: impl Fn(&[u8]) -> Result<Vec<u8>, String>) -> Result<(), String> {
    let mut input = Vec::new();
    let read = io::stdin().read_to_end(&mut input);
    read.map_err(|problem| problem.to_string())?;
    let output = way(&input)?;
    let written = io::stdout().write_all(&output);
    written.map_err(|problem| problem.to_string())
}
