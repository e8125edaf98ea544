//! `retarget TARGET MODULE.ll OUT.ll`: the module of the proved calls for another
//! processor, or the first line of it that is not known.

use std::process::ExitCode;

use targets::module::retarget;

fn run(words: &[String]) -> Result<(), String> {
    let [target, module, out] = words else {
        return Err("usage: retarget TARGET MODULE.ll OUT.ll".to_owned());
    };
    let text = std::fs::read_to_string(module).map_err(|error| format!("{module}: {error}"))?;
    let text = retarget(&text, target.parse()?).map_err(|stop| format!("{module}, {stop}"))?;
    std::fs::write(out, text).map_err(|error| format!("{out}: {error}"))
}

fn main() -> ExitCode {
    let words: Vec<String> = std::env::args().skip(1).collect();
    match run(&words) {
        Ok(()) => ExitCode::SUCCESS,
        Err(why) => {
            eprintln!("retarget: {why}");
            ExitCode::FAILURE
        }
    }
}
