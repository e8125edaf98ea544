//! The samples that the page offers, as JSON.

use std::fs;
use std::path::Path;

use crate::encode::base64;

/// How a sample's output begins its last part, and under which words the sample is
/// offered.
const GROUPS: [(&str, &str); 3] = [
    ("plan ", "There is a plan"),
    ("none ", "There is no plan"),
    ("refused ", "Files that are refused"),
];

/// The sample with which a look around begins.
const FIRST: &str = "district";

/// A list of all samples of a folder: the name, the group, and the roster as text, or
/// its bytes where there is no text.
pub fn listed(folder: &Path) -> Result<String, String> {
    let problem = |problem: std::io::Error| format!("{}: {problem}", folder.display());
    let mut names = Vec::new();
    for entry in fs::read_dir(folder).map_err(problem)? {
        let name = entry.map_err(problem)?.file_name();
        let name = name.to_str().unwrap_or_default();
        names.extend(name.strip_suffix(".roster").map(str::to_owned));
    }
    if names.is_empty() {
        return Err(format!("{}: there are no samples", folder.display()));
    }
    let mut samples = Vec::new();
    for name in names {
        let at = |ending: &str| folder.join(format!("{name}.{ending}"));
        let out = fs::read_to_string(at("out")).map_err(problem)?;
        let group = group(&out).ok_or_else(|| format!("{name}.out has no ending"))?;
        let roster = match fs::read_to_string(at("txt")) {
            Ok(text) => format!("\"text\": {}", quoted(&text)),
            Err(_) => format!(
                "\"bytes\": \"{}\"",
                base64(&fs::read(at("roster")).map_err(problem)?)
            ),
        };
        let told = format!(
            "{{\"name\": {}, \"group\": {}, {roster}}}",
            quoted(&name),
            quoted(GROUPS[group].1)
        );
        samples.push((group, name != FIRST, name, told));
    }
    samples.sort();
    let told: Vec<String> = samples.into_iter().map(|(.., told)| told).collect();
    Ok(format!("[\n{}\n]", told.join(",\n")))
}

/// Which of the groups an output belongs to.
fn group(out: &str) -> Option<usize> {
    GROUPS
        .iter()
        .position(|(start, _)| out.lines().any(|line| line.starts_with(start)))
}

/// A text in JSON that can stand in a page: no letter in it begins a tag.
fn quoted(text: &str) -> String {
    let mut quoted = String::from("\"");
    for letter in text.chars() {
        match letter {
            '"' | '\\' => quoted.extend(['\\', letter]),
            '<' => quoted.push_str("\\u003c"),
            control if control < ' ' => quoted.push_str(&format!("\\u{:04x}", u32::from(control))),
            other => quoted.push(other),
        }
    }
    quoted.push('"');
    quoted
}
