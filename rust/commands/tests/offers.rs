//! The command `offers` on the samples that have its output stored beside them, and
//! what it says of files that it cannot use.

mod common;

use std::fs;
use std::path::Path;

use common::{root, run, Said, Scratch};

fn offers(paths: &[&Path]) -> Said {
    run(env!("CARGO_BIN_EXE_offers"), paths)
}

/// The command could not do it: its exit code and what it said.
fn not_done(paths: &[&Path]) -> (i32, String) {
    let said = offers(paths);
    assert_eq!(said.lines.len(), 0, "{:?}", said.lines);
    (said.code, said.errors.join("\n"))
}

#[test]
fn samples() {
    for name in ["two-for-one", "crossed"] {
        let sample = root().join("samples").join(name);
        let stored = fs::read_to_string(sample.with_extension("offers")).expect("the output");
        let said = offers(&[&sample.with_extension("roster")]);
        assert_eq!((said.code, said.errors.len()), (0, 0));
        assert_eq!(said.lines, stored.lines().collect::<Vec<_>>());
    }
}

#[test]
fn words_for_what_is_wrong() {
    let samples = root().join("samples");
    let (code, words) = not_done(&[&samples.join("tied.roster")]);
    assert!(
        code == 1 && words.contains("refused by number 22: "),
        "{words}"
    );
    let (code, words) = not_done(&[&samples.join("no-such.roster")]);
    assert!(
        code == 2 && words.contains("it cannot be read: "),
        "{words}"
    );
    let (code, words) = not_done(&[]);
    assert!(code == 2 && words.starts_with("usage: "), "{words}");
}

/// The plan's bytes are written once: a file that is there stays.
#[test]
fn the_plan_as_a_file() {
    let scratch = Scratch::new("offers");
    let folder = scratch.folder("plans", &[]);
    let (roster, plan) = (
        root().join("samples/two-for-one.roster"),
        folder.join("plan"),
    );
    assert_eq!(offers(&[&roster, &plan]).code, 0);
    assert_eq!(fs::read(&plan).expect("the plan"), [1, 1, 1, 1]);
    let (code, words) = not_done(&[&roster, &plan]);
    assert!(
        code == 2 && words.contains("it cannot be written: "),
        "{words}"
    );
}
