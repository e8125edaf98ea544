//! Plain offers for a training block's roster: prints the plan, and whether it is
//! strong.

use std::env;
use std::ffi::OsString;
use std::fs::{self, File};
use std::io::{self, Write};
use std::path::Path;
use std::process::ExitCode;

use planner::{Offers, PAIR_BYTES, PLAN_BYTES};

const USAGE: &str = "usage: offers ROSTER [PLAN]
       offers help";

const HELP: &str = "
ROSTER is a roster file with all quotas one, all shifts 1 and no ties. Its
surveyors offer, best stand first; each stand keeps its best offer, and who is
turned away offers on. No pair blocks the plan that comes of it, and no vote of
it against another plan is below zero.

The plan is printed, the number of its pairs first and then a line for each:
surveyor, stand, shift. The last line is `strong` if its vote against every other
plan is above zero: then the finder hands back the same plan; else `not strong`:
then the finder says none.

With PLAN the plan's bytes are also written to that file, which must not be there
yet.

The answer is the proved call's of the static library, not the reference's.

The exit code is 0 if the plan was told, 1 if the roster was refused, 2 if nothing
could be tried or written.";

const REFUSED: u8 = 1;
const NOT_TRIED: u8 = 2;

fn main() -> ExitCode {
    let arguments: Vec<OsString> = env::args_os().skip(1).collect();
    match arguments.as_slice() {
        [word] if word == "help" || word == "--help" => {
            println!("{USAGE}\n{HELP}");
            ExitCode::SUCCESS
        }
        [roster] => run(Path::new(roster), None),
        [roster, plan] => run(Path::new(roster), Some(Path::new(plan))),
        _ => told(NOT_TRIED, USAGE),
    }
}

fn run(roster: &Path, plan: Option<&Path>) -> ExitCode {
    let file = match fs::read(roster) {
        Ok(file) => file,
        Err(error) => {
            return told(
                NOT_TRIED,
                &format!("{}: it cannot be read: {error}", roster.display()),
            )
        }
    };
    let mut out = [0; PLAN_BYTES];
    let offers = match planner::offers(&file, &mut out) {
        Ok(offers) => offers,
        Err(refusal) => {
            let number = refusal.number;
            let name = roster.display();
            return told(
                REFUSED,
                &format!("{name}: refused by number {number}: {refusal}"),
            );
        }
    };
    let bytes = &out[..offers.length];
    if let Some((path, Err(error))) = plan.map(|path| (path, put(path, bytes))) {
        return told(
            NOT_TRIED,
            &format!("{}: it cannot be written: {error}", path.display()),
        );
    }
    match print(offers, bytes) {
        Ok(()) => ExitCode::SUCCESS,
        Err(error) => told(NOT_TRIED, &format!("the plan cannot be printed: {error}")),
    }
}

/// Writes a file that is not there yet.
fn put(path: &Path, bytes: &[u8]) -> io::Result<()> {
    File::create_new(path)?.write_all(bytes)
}

/// The pairs in the program's form, and whether the plan is strong.
fn print(offers: Offers, plan: &[u8]) -> io::Result<()> {
    let mut out = io::stdout().lock();
    writeln!(out, "plan {}", plan[0])?;
    for pair in plan[1..].chunks_exact(PAIR_BYTES) {
        writeln!(out, "{} {} {}", pair[0], pair[1], pair[2])?;
    }
    writeln!(
        out,
        "{}",
        if offers.strong {
            "strong"
        } else {
            "not strong"
        }
    )
}

fn told(code: u8, words: &str) -> ExitCode {
    eprintln!("{words}");
    ExitCode::from(code)
}
