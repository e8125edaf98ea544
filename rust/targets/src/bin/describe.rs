//! `describe WHAT CREW.h`: the header told to other languages. WHAT is `version`,
//! `json`, `form` (every call in one form, as C) or `naming` (a C file that names
//! every call).

use std::process::ExitCode;

use targets::describe::{in_one_form, json, naming};
use targets::header::Header;

fn run(words: &[String]) -> Result<String, String> {
    let [what, header] = words else {
        return Err("usage: describe version|json|form|naming CREW.h".to_owned());
    };
    let text = std::fs::read_to_string(header).map_err(|error| format!("{header}: {error}"))?;
    let header = Header::read(&text).map_err(|unknown| unknown.to_string())?;
    match what.as_str() {
        "version" => header
            .version()
            .map(|version| version + "\n")
            .ok_or_else(|| "no version".to_owned()),
        "json" => Ok(json(&header)),
        "form" => Ok(in_one_form(&header)),
        "naming" => Ok(naming(&header)),
        _ => Err(format!("{what} is none of version, json, form, naming")),
    }
}

fn main() -> ExitCode {
    let words: Vec<String> = std::env::args().skip(1).collect();
    match run(&words) {
        Ok(text) => {
            print!("{text}");
            ExitCode::SUCCESS
        }
        Err(why) => {
            eprintln!("describe: {why}");
            ExitCode::FAILURE
        }
    }
}
