//! The page for crew leaders as one file: `web/page.html` with its style, its
//! scripts, the samples and the proved planner (crew.wasm) in it, and a policy that
//! allows these and no others, by their sums. Nothing is fetched from anywhere.

mod encode;
mod modules;
mod parts;
mod samples;

pub use encode::{base64, sha256};
pub use modules::bundled;
pub use parts::filled;
pub use samples::listed;

use std::fs;
use std::path::Path;

/// The page, made of the folder `web`, of a folder with crew.wasm, crew.mjs and
/// described.mjs, and of the samples.
pub fn page(web: &Path, planner: &Path, samples: &Path) -> Result<String, String> {
    let style = format!(
        "\n{}{}",
        read(&web.join("style.css"))?,
        read(&web.join("print.css"))?
    );
    let script = format!(
        "\n{}",
        bundled("main.mjs", &|name| read(&web.join("src").join(name))
            .or_else(|_| read(&planner.join(name))))?
    );
    for (name, text) in [("style", &style), ("script", &script)] {
        let end = format!("</{name}");
        if text.to_lowercase().contains(&end) {
            return Err(format!("the {name} has '{end}' in it"));
        }
    }
    let wasm = planner.join("crew.wasm");
    let wasm = fs::read(&wasm).map_err(|problem| format!("{}: {problem}", wasm.display()))?;
    let parts = [
        ("policy", policy(&style, &script)),
        ("version", version(&read(&planner.join("described.mjs"))?)?),
        ("samples", listed(samples)?),
        ("planner", base64(&wasm)),
        ("style", style),
        ("script", script),
    ];
    filled(&read(&web.join("page.html"))?, &parts)
}

/// Nothing is allowed but this style and this script, and that the script compiles
/// the planner.
fn policy(style: &str, script: &str) -> String {
    let sum = |text: &str| format!("'sha256-{}'", base64(&sha256(text.as_bytes())));
    let (style, script) = (sum(style), sum(script));
    format!("default-src 'none'; script-src {script} 'wasm-unsafe-eval'; style-src {style}; base-uri 'none'; form-action 'none'")
}

/// The version that the description of the header tells.
fn version(described: &str) -> Result<String, String> {
    let told = described
        .split_once("\"version\": \"")
        .and_then(|(_, behind)| behind.split_once('"'));
    let (version, _) = told.ok_or("described.mjs tells no version")?;
    Ok(version.to_owned())
}

fn read(path: &Path) -> Result<String, String> {
    fs::read_to_string(path).map_err(|problem| format!("{}: {problem}", path.display()))
}
