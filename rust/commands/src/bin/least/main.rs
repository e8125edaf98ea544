//! The least vote of one plan against another where rankings are not yet settled:
//! prints it beside the ordinary vote, with ranks that reach it.

mod problem;

use std::env;
use std::ffi::OsString;
use std::path::Path;
use std::process::ExitCode;

use commands::files;
use planner::{Desk, PAIRING_BYTES, PLAN_BYTES, RANK_BYTES, ROSTER_BYTES};
use reference::ranges::Range;
use reference::roster;
use rostertext::{pack_ranges, print_ranges};

use problem::{Problem, Why};

const USAGE: &str = "usage: least ROSTER FIRST SECOND RANGES
       least help";

const HELP: &str = "
ROSTER is a roster file, FIRST and SECOND are plan files of it, and RANGES is a text:
a line for a surveyor or a stand, and in it entries of its list with the ranks that
they may have, as in `stand 1: 2=2..4`. An entry that is not named has its rank in
the roster.

The least vote of the first plan against the second over all choices of ranks
within the ranges is printed, then the vote by the roster's own ranks, and then
ranks that reach the least vote, as a text of the same form with every entry whose
rank is not the roster's.

The votes are the proved calls' of the static library; the text is read and
written beside them.

The exit code is 0, or 2 if nothing could be told.";

const NOT_TOLD: u8 = 2;

fn main() -> ExitCode {
    let arguments: Vec<OsString> = env::args_os().skip(1).collect();
    let told = match arguments.as_slice() {
        [word] if word == "help" || word == "--help" => {
            println!("{USAGE}\n{HELP}");
            return ExitCode::SUCCESS;
        }
        [roster, first, second, ranges] => {
            let paths = [roster, first, second, ranges].map(Path::new);
            least(paths).map_err(|problem| problem.to_string())
        }
        _ => Err(USAGE.to_owned()),
    };
    match told {
        Ok(text) => {
            print!("{text}");
            ExitCode::SUCCESS
        }
        Err(words) => {
            eprintln!("{words}");
            ExitCode::from(NOT_TOLD)
        }
    }
}

/// The longest text that is read: enough for any ranges that a person writes.
const TEXT_BYTES: usize = 1 << 20;

fn least([roster, first, second, text]: [&Path; 4]) -> Result<String, Problem> {
    let read = |path, longest| {
        files::read(path, longest).map_err(|error| Problem::of(path, Why::NotRead(error)))
    };
    let file = read(roster, ROSTER_BYTES)?;
    let refused = |path| move |refusal| Problem::of(path, Why::Refused(refusal));
    let mut desk = Desk::open();
    desk.load_roster(&file).map_err(refused(roster))?;
    // each plan by itself, so that a refusal is told of its own file
    let plans = [read(first, PLAN_BYTES)?, read(second, PLAN_BYTES)?];
    for (plan, path) in plans.iter().zip([first, second]) {
        desk.load_plan(plan).map_err(refused(path))?;
    }
    let ranges = pack_ranges(&file, &read(text, TEXT_BYTES)?)
        .map_err(|words| Problem::of(text, Why::Wrong(words)))?;
    let mut ranks = [0; RANK_BYTES];
    let least = desk
        .least(&plans[0], &plans[1], &ranges, &mut ranks)
        .map_err(refused(text))?;
    let (mut forward, mut back) = ([0; PAIRING_BYTES], [0; PAIRING_BYTES]);
    let compared = desk.compare(&plans[0], &plans[1], &mut forward, &mut back);
    let votes = compared.outcome.map_err(refused(second))?;
    let chosen: Vec<Range> = ranks[..least.ranks]
        .iter()
        .copied()
        .map(Range::settled)
        .collect();
    let roster = roster::read(&file).expect("a roster that was loaded");
    Ok(format!(
        "least vote {}\nordinary vote {}\n{}",
        least.vote,
        votes.first,
        print_ranges(&roster, &chosen)
    ))
}
