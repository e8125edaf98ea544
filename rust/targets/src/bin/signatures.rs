//! `signatures TARGET CREW.h MODULE.ll NAMING.ll`: whether the exported functions of a
//! module take and give what a C compiler makes of the header (`describe naming` is
//! the file that it is given). Prints what differs.

use std::process::ExitCode;

use targets::header::Header;
use targets::signature::{declared, defined, differences};
use targets::target::Target;

fn read(name: &str) -> Result<String, String> {
    std::fs::read_to_string(name).map_err(|error| format!("{name}: {error}"))
}

fn run(words: &[String]) -> Result<usize, String> {
    let [target, header, module, naming] = words else {
        return Err("usage: signatures TARGET CREW.h MODULE.ll NAMING.ll".to_owned());
    };
    let target: Target = target.parse()?;
    let header = Header::read(&read(header)?).map_err(|unknown| unknown.to_string())?;
    let declared = declared(&read(naming)?, target, &header)?;
    if declared.len() != header.calls.len() {
        return Err(format!(
            "the compiler knows {} of {} calls",
            declared.len(),
            header.calls.len()
        ));
    }
    let differ = differences(&defined(&read(module)?, target, &header)?, &declared);
    match differ[..] {
        [] => Ok(declared.len()),
        _ => Err(differ.join("\n")),
    }
}

fn main() -> ExitCode {
    let words: Vec<String> = std::env::args().skip(1).collect();
    match run(&words) {
        Ok(count) => {
            println!("{count} functions as in crew.h");
            ExitCode::SUCCESS
        }
        Err(why) => {
            eprintln!("signatures: {why}");
            ExitCode::FAILURE
        }
    }
}
