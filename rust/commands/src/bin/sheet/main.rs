//! Prints the foreman's sheet of a plan as a table: a row a surveyor or a stand,
//! and a column a day.

mod problem;
mod table;

use std::env;
use std::ffi::{OsStr, OsString};
use std::path::Path;
use std::process::ExitCode;

use commands::files;
use planner::{Desk, ROSTER_BYTES};

use problem::{Problem, Why};
use table::{table, Rows};

const USAGE: &str = "usage: sheet surveyors ROSTER PLAN
       sheet stands ROSTER PLAN
       sheet help";

const HELP: &str = "
Spreads the plan of the file PLAN, which is judged against the roster of the file
ROSTER, over days, and prints the sheet: a row for each surveyor or each stand,
and a column for each day.

A cell has the stand, or the surveyor, that the row's node is with on that day, with the
shift behind a stroke if it is not the first; a dash is a free day. No
surveyor and no stand has two entries on one day, and no sheet of the plan has
fewer days.

The days are the proved calls' of the static library.

The exit code is 0, or 2 if no sheet could be printed.";

const NO_SHEET: u8 = 2;

fn main() -> ExitCode {
    let arguments: Vec<OsString> = env::args_os().skip(1).collect();
    let printed = match arguments.as_slice() {
        [word] if word == "help" || word == "--help" => {
            println!("{USAGE}\n{HELP}");
            return ExitCode::SUCCESS;
        }
        [word, roster, plan] => match Rows::named(word) {
            Some(rows) => sheet(rows, roster, plan).map_err(|problem| problem.to_string()),
            None => Err(USAGE.to_owned()),
        },
        _ => Err(USAGE.to_owned()),
    };
    match printed {
        Ok(text) => {
            print!("{text}");
            ExitCode::SUCCESS
        }
        Err(words) => {
            eprintln!("{words}");
            ExitCode::from(NO_SHEET)
        }
    }
}

/// The sheet of a plan's file as a table.
fn sheet(rows: Rows, roster: &OsStr, plan: &OsStr) -> Result<String, Problem> {
    let mut desk = Desk::open();
    let (roster, plan) = (Path::new(roster), Path::new(plan));
    load(roster, |file| desk.load_roster(file))?;
    load(plan, |file| desk.load_plan(file))?;
    let sheet = desk
        .sheet()
        .map_err(|refusal| Problem::of(plan, Why::Refused(refusal)))?;
    Ok(table(&sheet, rows, rows.count(&desk)))
}

/// Reads a file and loads it.
fn load(
    path: &Path,
    load: impl FnOnce(&[u8]) -> Result<(), planner::Refusal>,
) -> Result<(), Problem> {
    let file = files::read(path, ROSTER_BYTES);
    let file = file.map_err(|error| Problem::of(path, Why::NotRead(error)))?;
    load(&file).map_err(|refusal| Problem::of(path, Why::Refused(refusal)))
}
