//! The benchmark runs: every table is there with its rows, every answer is the
//! reference's, which the benchmark looks at itself.

use std::process::Command;

fn bench(words: &[&str]) -> (bool, String, String) {
    let output = Command::new(env!("CARGO_BIN_EXE_bench"))
        .args(words)
        .output()
        .expect("the benchmark starts");
    let [out, told] =
        [output.stdout, output.stderr].map(|text| String::from_utf8(text).expect("plain text"));
    (output.status.success(), out, told)
}

#[test]
fn every_table() {
    let (done, out, told) = bench(&["quick"]);
    assert!(done, "{told}");
    let document = include_str!("../../../docs/BENCHMARKS.md");
    let names: Vec<&str> = out
        .lines()
        .filter_map(|line| line.strip_prefix("## "))
        .collect();
    assert_eq!(names.len(), 11);
    for (name, part) in names.iter().zip(out.split("## ").skip(1)) {
        assert!(
            document.contains(&format!("<!-- bench: {name} -->\n")),
            "{name} has no place in the document"
        );
        let rows = part.lines().filter(|line| line.starts_with("| ")).count();
        let missing = *name == "peer" && part.contains("install liblemon-dev");
        assert!(rows >= 3 || missing, "{part}");
    }
    assert_eq!(told.lines().count(), names.len());
}

#[test]
fn usage() {
    let (done, out, told) = bench(&["nothing"]);
    assert!(!done && out.is_empty() && told.starts_with("usage: bench"));
    let (done, out, _) = bench(&["quick", "growth"]);
    assert!(done && out.starts_with("## growth\n"));
}
