//! The stored samples: the program's output for each, and that each output is
//! settled by document 01 alone, because only one plan can be the rival.

use std::fs;
use std::path::{Path, PathBuf};

use reference::districts;
use reference::finder::{find, find_large, Answer, Why};
use reference::limits::{MAX_ROSTER_BYTES, MAX_STORED_BYTES};
use reference::plans::all_plans;
use reference::program;
use reference::roster;
use reference::routes;
use reference::votes::plan_vote;

/// Rosters up to this many pairs are also judged by the votes against all plans.
const SMALL: usize = 12;

fn folder() -> PathBuf {
    Path::new(env!("CARGO_MANIFEST_DIR")).join("../../samples")
}

/// The bytes of a file among the samples.
fn sample(name: &str) -> Vec<u8> {
    fs::read(folder().join(name)).expect("a sample")
}

/// All samples: name, roster bytes, what must be printed for them.
fn samples() -> Vec<(String, Vec<u8>, Vec<u8>)> {
    let mut samples = Vec::new();
    for entry in fs::read_dir(folder()).expect("the samples") {
        let path = entry.expect("a sample").path();
        if path.extension().is_some_and(|end| end == "roster") {
            let bytes = fs::read(&path).expect("its bytes");
            let out = fs::read(path.with_extension("out")).expect("its output");
            samples.push((path.display().to_string(), bytes, out));
        }
    }
    samples
}

#[test]
fn outputs_are_printed() {
    for (name, bytes, out) in samples() {
        assert_eq!(program::run_with(&bytes, find_large), out, "{name}");
        let small = roster::read(&bytes).is_ok_and(|roster| roster.pairs().len() <= SMALL);
        if small {
            assert_eq!(program::run_with(&bytes, find), out, "{name}");
        }
    }
}

#[test]
fn every_ending_occurs() {
    let endings = [
        "plan ",
        "none left ",
        "none rivalled 0",
        "none rivalled -",
        "refused 1 form",
        "refused 3 content",
        "refused 18 content",
    ];
    for ending in endings {
        let ends = |out: &[u8]| {
            let text = String::from_utf8(out.to_vec()).expect("plain text");
            text.lines().any(|line| line.starts_with(ending))
        };
        let occurs = samples().iter().any(|(_, _, out)| ends(out));
        assert!(occurs, "{ending}");
    }
}

#[test]
fn rivals_are_the_only_ones() {
    let mut rivalled = 0;
    for (name, bytes, _) in samples() {
        let Ok(roster) = roster::read(&bytes) else {
            continue;
        };
        let Answer::None {
            why:
                Why::Rivalled {
                    candidate,
                    rival,
                    vote,
                },
            ..
        } = find_large(&roster)
        else {
            continue;
        };
        rivalled += 1;
        let plans = all_plans(&roster);
        let rivals: Vec<_> = plans
            .iter()
            .filter(|&plan| *plan != candidate)
            .filter(|&plan| plan_vote(&roster, &candidate, plan).signum() <= vote.signum())
            .collect();
        assert_eq!(rivals, [&rival], "{name}");
    }
    assert!(rivalled >= 2);
}

#[test]
fn two_districts_are_joined() {
    let [north, south, both] =
        ["north", "south", "north-and-south"].map(|name| sample(&format!("{name}.roster")));
    let mut out = [0; MAX_ROSTER_BYTES];
    let joined = districts::join(&north, &south, &mut out);
    assert_eq!(joined, Ok(both.len()));
    assert_eq!(out[..both.len()], both);
}

/// What the program prints behind the diary.
fn printed_plan(roster: &[u8]) -> String {
    let printed = program::run_with(roster, find);
    let text = String::from_utf8(printed).expect("plain text");
    let start = text.find("plan ").expect("a plan");
    text[start..].to_owned()
}

#[test]
fn a_roster_is_stored_in_walking_order() {
    let (roster, stored) = (sample("walked.roster"), sample("walked.stored"));
    let route: &[u8] = &[3, 2, 3, 1];
    let file = [route, &roster].concat();
    let mut out = [0; MAX_STORED_BYTES];
    assert_eq!(routes::store(&file, &mut out), Ok(stored.len()));
    assert_eq!(out[..stored.len()], stored);
    assert_eq!(routes::unstore(&stored, &mut out), Ok(file.len()));
    assert_eq!(out[..file.len()], file);
    // stand 2 is the first now, 3 the second and 1 the third
    let plan = "plan 4\n1 1 1\n1 2 1\n2 3 1\n3 2 1\n";
    assert_eq!(printed_plan(&roster), plan);
    let renumbered = "plan 4\n1 1 1\n1 3 1\n2 2 1\n3 1 1\n";
    assert_eq!(printed_plan(&stored[route.len()..]), renumbered);
}
