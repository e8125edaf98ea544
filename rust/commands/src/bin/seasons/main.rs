//! Turns a folder of old season files into new ones, and back.

mod folder;
mod problem;
mod run;
mod way;

use std::env;
use std::ffi::OsString;
use std::io;
use std::path::Path;
use std::process::ExitCode;

use way::Way;

const USAGE: &str = "usage: seasons to-new FOLDER TARGET
       seasons to-old FOLDER TARGET
       seasons help";

const HELP: &str = "
Turns the season files of FOLDER into TARGET, which is made if it is not there.
to-new: files from before the shifts become new ones, with shift 1 throughout.
to-old: new files that have only shift 1 go back to the identical old bytes.

NAME.roster is a roster. NAME.plan and NAME.WORD.plan are plans of it and are
judged against it; where several rosters' names would fit, the longest counts.
A plan whose roster is not turned is not turned either. Other files, and folders
inside FOLDER, are passed over.

Each file is named with what became of it, and at the end once more what was not
turned and why. Nothing in FOLDER changes. A file that is in TARGET already is
never overwritten: with the same bytes it counts as turned, so that a run that
broke off can be made again, and with others it is named.

The files are turned by the proved calls of the static library, not by the
reference.

The exit code is 0 if everything was turned, 1 if something was not, 2 if
nothing could be tried.";

const NOT_ALL: u8 = 1;
const NOT_TRIED: u8 = 2;

fn main() -> ExitCode {
    let arguments: Vec<OsString> = env::args_os().skip(1).collect();
    match arguments.as_slice() {
        [word] if word == "help" || word == "--help" => {
            println!("{USAGE}\n{HELP}");
            ExitCode::SUCCESS
        }
        [word, folder, target] => match Way::named(word) {
            Some(way) => turn(way, Path::new(folder), Path::new(target)),
            None => not_tried(USAGE),
        },
        _ => not_tried(USAGE),
    }
}

fn turn(way: Way, folder: &Path, target: &Path) -> ExitCode {
    match run::run(way, folder, target, &mut io::stdout()) {
        Ok(left) if left.is_empty() => ExitCode::SUCCESS,
        Ok(left) => {
            eprintln!("not turned:");
            for line in left {
                eprintln!("  {line}");
            }
            ExitCode::from(NOT_ALL)
        }
        Err(problem) => not_tried(&problem),
    }
}

fn not_tried(words: &str) -> ExitCode {
    eprintln!("{words}");
    ExitCode::from(NOT_TRIED)
}
