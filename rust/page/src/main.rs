//! `page WEB PLANNER SAMPLES OUT`: writes the page for crew leaders to the file OUT.
//! WEB has its sources, PLANNER crew.wasm with crew.mjs and described.mjs (the folder
//! `web` of the bundle), SAMPLES the rosters to choose from.

use std::fs;
use std::path::Path;
use std::process::ExitCode;

const USAGE: &str = "usage: page WEB PLANNER SAMPLES OUT";

fn main() -> ExitCode {
    let arguments: Vec<String> = std::env::args().skip(1).collect();
    let [web, planner, samples, out] = arguments.as_slice() else {
        eprintln!("{USAGE}");
        return ExitCode::FAILURE;
    };
    let made = page::page(Path::new(web), Path::new(planner), Path::new(samples));
    let written = made.and_then(|text| {
        fs::write(out, &text).map_err(|problem| format!("{out}: {problem}"))?;
        Ok(text.len())
    });
    match written {
        Ok(bytes) => {
            println!("{out}: {bytes} bytes");
            ExitCode::SUCCESS
        }
        Err(problem) => {
            eprintln!("page: {problem}");
            ExitCode::FAILURE
        }
    }
}
