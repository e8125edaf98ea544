//! Roster files joined, two districts becoming one, and stored in walking order.

mod join;
mod problem;
mod roster;
mod walk;

use std::env;
use std::ffi::OsString;
use std::path::Path;
use std::process::ExitCode;

use problem::Problem;

const USAGE: &str = "usage: rosters join FIRST SECOND TARGET
       rosters store FILE TARGET NUMBER..
       rosters unstore FILE TARGET
       rosters help";

const HELP: &str = "
join: the rosters of two districts that have nobody in common become one, TARGET.
SECOND's surveyors and stands come after FIRST's, their numbers moved up.

store: the roster of FILE is stored in walking order. The numbers are the route, which
names each stand once, such as 2 3 1: stand 2 becomes 1, 3 becomes 2 and 1 becomes 3.
TARGET has the route in front, and behind it the roster renumbered.

unstore: the roster that was stored in FILE is put into TARGET as it was, and the route
is told.

NAME.txt is a roster as text, as rostertext has it; a file of any other name is a
roster's bytes. A roster's TARGET is written in the form that its name tells; a stored
file has bytes alone, whatever its name.

A file that is TARGET already is never overwritten: with the same bytes it counts as
written. If a file is refused, it is named with the refusal's number, and nothing is
written. Sums of two that are too large name both.

The files are joined and stored by the proved calls of the static library, not by the
reference.

The exit code is 0 if TARGET is there then, 1 if it is not, 2 if nothing could be
tried.";

const NOT_DONE: u8 = 1;
const NOT_TRIED: u8 = 2;

fn main() -> ExitCode {
    let arguments: Vec<OsString> = env::args_os().skip(1).collect();
    match arguments.as_slice() {
        [word] if word == "help" || word == "--help" => {
            println!("{USAGE}\n{HELP}");
            ExitCode::SUCCESS
        }
        [word, first, second, target] if word == "join" => {
            let paths = [first, second, target].map(Path::new);
            told(join::join([paths[0], paths[1]], paths[2]))
        }
        [word, file, target, route @ ..] if word == "store" => {
            told(walk::store(Path::new(file), Path::new(target), route))
        }
        [word, file, target] if word == "unstore" => {
            told(walk::unstore(Path::new(file), Path::new(target)))
        }
        _ => {
            eprintln!("{USAGE}");
            ExitCode::from(NOT_TRIED)
        }
    }
}

/// Tells what was done, or why it was not.
fn told(done: Result<String, Problem>) -> ExitCode {
    match done {
        Ok(words) => {
            println!("{words}");
            ExitCode::SUCCESS
        }
        Err(problem) => {
            eprintln!("{problem}");
            ExitCode::from(NOT_DONE)
        }
    }
}
