//! The command `least` on files: what it prints, and what it says of files that it
//! cannot use.

mod common;

use std::fs;
use std::path::{Path, PathBuf};

use common::{root, run, Said, Scratch};

fn least(paths: &[&Path]) -> Said {
    run(env!("CARGO_BIN_EXE_least"), paths)
}

fn sample(end: &str) -> PathBuf {
    root().join("samples").join(format!("two-for-one.{end}"))
}

/// The sample's four files.
fn samples() -> [PathBuf; 4] {
    ["roster", "first.plan", "second.plan", "ranges"].map(sample)
}

#[test]
fn the_sample() {
    let [roster, first, second, ranges] = samples();
    let said = least(&[&roster, &first, &second, &ranges]);
    let stored = fs::read_to_string(sample("least")).expect("what it prints");
    assert_eq!((said.code, said.errors.len()), (0, 0));
    assert_eq!(said.lines, stored.lines().collect::<Vec<_>>());
    // no plan is lower than by its own ranks where nothing is named
    let scratch = Scratch::new("least-settled");
    let folder = scratch.folder("texts", &[("none", b""), ("one", b"stand 1: 2=1..3\n")]);
    let said = least(&[&roster, &first, &second, &folder.join("none")]);
    assert_eq!(said.lines, ["least vote 1", "ordinary vote 1"]);
    // surveyor 2 as good as surveyor 1 at the stand
    let said = least(&[&roster, &first, &second, &folder.join("one")]);
    assert_eq!(
        said.lines,
        ["least vote 0", "ordinary vote 1", "stand 1: 2=1"]
    );
}

#[test]
fn words_for_what_is_wrong() {
    let [roster, first, second, ranges] = samples();
    let scratch = Scratch::new("least-wrong");
    let folder = scratch.folder(
        "files",
        &[
            ("cut.plan", &[1, 1][..]),
            ("bad.roster", &[1, 9]),
            ("bad.ranges", b"stand 1: 1=3..2\n"),
        ],
    );
    let [plan, bad, text] = ["cut.plan", "bad.roster", "bad.ranges"].map(|name| folder.join(name));
    for (paths, words) in [
        (
            [&bad, &first, &second, &ranges],
            "bad.roster: refused by number 3: a quota is above 8, or the quotas of one side are above 64 together",
        ),
        (
            [&roster, &plan, &second, &ranges],
            "cut.plan: refused by number 1: the bytes end inside a field",
        ),
        (
            [&roster, &first, &plan, &ranges],
            "cut.plan: refused by number 1: the bytes end inside a field",
        ),
        (
            [&roster, &first, &second, &text],
            "bad.ranges: line 1: 3 to 2 is no range: ranks go from 1 to 32, the lower one first",
        ),
    ] {
        let said = least(&paths.map(PathBuf::as_path));
        assert_eq!((said.code, said.lines.len()), (2, 0), "{words}");
        assert!(said.errors[0].ends_with(words), "{:?}", said.errors);
    }
    let missing = folder.join("none");
    let said = least(&[&roster, &first, &second, &missing]);
    assert_eq!((said.code, said.lines.len()), (2, 0));
    assert!(said.errors[0].contains("none: it cannot be read: "));
}

#[test]
fn usage_and_help() {
    let said = least(&[]);
    assert_eq!(said.code, 2);
    assert_eq!(said.errors[0], "usage: least ROSTER FIRST SECOND RANGES");
    let said = least(&[Path::new("help")]);
    assert_eq!((said.code, said.errors.len()), (0, 0));
    assert!(said
        .lines
        .iter()
        .any(|line| line.contains("stand 1: 2=2..4")));
}
