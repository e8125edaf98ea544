//! Reads a roster from standard input and prints the finder's answer. The
//! verdict is the fast reading's, so that rosters up to the limits are
//! answered at once.

use std::io::{self, Read, Write};

use reference::finder::find_large;
use reference::limits::MAX_INPUT_BYTES;
use reference::program;

fn main() -> io::Result<()> {
    let mut input = Vec::new();
    let limit = u64::try_from(MAX_INPUT_BYTES).expect("a small limit");
    io::stdin().take(limit).read_to_end(&mut input)?;
    io::stdout().write_all(&program::run_with(&input, find_large))
}
