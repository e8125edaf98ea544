//! The command `rosters` on roster files: what it writes and says, and that nothing
//! else changes.

mod common;

use std::ffi::OsStr;
use std::fs;
use std::path::Path;

use common::{files, root, run, Said, Scratch};

/// Two surveyors rank one stand, which ranks 1 before 2; and the stand with quota 2,
/// which ties them.
const RANKED: [u8; 21] = [
    2, 1, 1, 1, 1, 2, 0, 1, 1, 1, 1, 1, 1, 2, 0, 2, 0, 1, 1, 2, 1,
];
const TIED: [u8; 21] = [
    2, 1, 1, 1, 2, 2, 0, 1, 1, 1, 1, 1, 1, 2, 0, 0, 2, 1, 1, 2, 1,
];

fn rosters<S: AsRef<OsStr>>(arguments: &[S]) -> Said {
    run(env!("CARGO_BIN_EXE_rosters"), arguments)
}

/// The only line that the command said, and its exit code.
fn line(said: Said) -> (i32, String) {
    let lines = [said.lines, said.errors].concat();
    assert_eq!(lines.len(), 1, "{lines:?}");
    (said.code, lines[0].clone())
}

/// Joins two files of a folder into a third one there.
fn join(folder: &Path, names: [&str; 3]) -> (i32, String) {
    let [first, second, target] = names.map(|name| folder.join(name));
    let said = rosters(&[
        OsStr::new("join"),
        first.as_ref(),
        second.as_ref(),
        target.as_ref(),
    ]);
    let (code, words) = line(said);
    (code, words.replace(&format!("{}/", folder.display()), ""))
}

/// So many surveyors of one quota, who rank nothing, as a roster's file.
fn alone(surveyors: u8, quota: u8) -> Vec<u8> {
    let line = |number| format!("surveyor {number} quota {quota}:\n");
    let text: String = (1..=surveyors).map(line).collect();
    rostertext::pack(text.as_bytes()).expect("a text")
}

fn sample(name: &str) -> Vec<u8> {
    fs::read(root().join("samples").join(name)).expect("a sample")
}

#[test]
fn districts_are_joined_as_bytes_and_as_text() {
    let scratch = Scratch::new("districts");
    let names = ["north.roster", "north.txt", "south.roster", "south.txt"];
    let samples = names.map(|name| (name, sample(name)));
    let samples = samples.each_ref().map(|(name, bytes)| (*name, &bytes[..]));
    let folder = scratch.folder("both", &samples);
    let both = sample("north-and-south.roster");
    for (number, end) in ["roster", "txt"].iter().enumerate() {
        for (place, other) in ["roster", "txt"].iter().enumerate() {
            let target = format!("{number}{place}.roster");
            let names = [&format!("north.{end}"), &format!("south.{other}"), &target];
            let said = join(&folder, names.map(String::as_str));
            let length = both.len();
            assert_eq!(said, (0, format!("{target} written, {length} bytes")));
            assert_eq!(files(&folder)[&target], both);
        }
    }
    // into a text, which says the same
    let (code, words) = join(&folder, ["north.txt", "south.roster", "both.txt"]);
    let text = &files(&folder)["both.txt"];
    let length = text.len();
    assert_eq!(
        (code, words),
        (0, format!("both.txt written, {length} bytes"))
    );
    assert_eq!(rostertext::pack(text), Ok(both));
    assert!(text.starts_with(b"surveyor 1 quota 2: 1 2\n"));
    // the files that were joined are as they were
    for (name, bytes) in samples {
        assert_eq!(files(&folder)[name], bytes);
    }
}

#[test]
fn a_refused_file_is_named_with_its_number() {
    let scratch = Scratch::new("refused");
    let many = alone(20, 0);
    let large = alone(8, 8);
    let text = "surveyor 1: 1\nstand 1:\n";
    let mut long = RANKED.to_vec();
    long.resize(1_000_000, 0);
    let folder = scratch.folder(
        "files",
        &[
            ("ranked", &RANKED),
            ("tied.roster", &TIED),
            ("cut", &RANKED[..9]),
            ("quota.roster", &[1, 9]),
            ("many", &many),
            ("large", &large),
            ("one-side.txt", text.as_bytes()),
            ("no-text.txt", &[255]),
            ("long", &long),
        ],
    );
    let before = files(&folder);
    let quota = "a quota is above 8, or the quotas of one side are above 64 together";
    let cases: [([&str; 2], String); 10] = [
        (
            ["cut", "ranked"],
            "cut: refused by number 1: the bytes end inside a field".into(),
        ),
        (
            ["tied.roster", "cut"],
            "cut: refused by number 1: the bytes end inside a field".into(),
        ),
        // the first file is checked in full before the second
        (
            ["quota.roster", "cut"],
            format!("quota.roster: refused by number 3: {quota}"),
        ),
        (
            ["cut", "quota.roster"],
            "cut: refused by number 1: the bytes end inside a field".into(),
        ),
        (
            ["many", "many"],
            "many and many together: refused by number 2: a count or a list length is above its limit".into(),
        ),
        (
            ["large", "tied.roster"],
            format!("large and tied.roster together: refused by number 3: {quota}"),
        ),
        (
            ["ranked", "one-side.txt"],
            "one-side.txt: line 1: surveyor 1 lists stand 1, but stand 1 does not list surveyor 1".into(),
        ),
        (
            ["no-text.txt", "ranked"],
            "no-text.txt: the input is no text".into(),
        ),
        (
            ["long", "ranked"],
            "long: refused by number 9: there are bytes after the end".into(),
        ),
        (
            ["nowhere", "ranked"],
            "nowhere: it cannot be read: No such file or directory (os error 2)".into(),
        ),
    ];
    for ([first, second], words) in cases {
        assert_eq!(join(&folder, [first, second, "target"]), (1, words));
    }
    assert_eq!(files(&folder), before);
}

#[test]
fn nothing_is_overwritten() {
    let scratch = Scratch::new("there");
    let folder = scratch.folder("files", &[("a", &RANKED), ("b", &TIED), ("c", &[7, 7])]);
    let before = files(&folder);
    for target in ["a", "b", "c"] {
        let words = format!("{target}: it is there with other bytes, and stays");
        assert_eq!(join(&folder, ["a", "b", target]), (1, words));
    }
    assert_eq!(files(&folder), before);
    let (code, words) = join(&folder, ["a", "b", "nowhere/d"]);
    assert_eq!(code, 1);
    assert!(
        words.starts_with("nowhere/d: it cannot be written: "),
        "{words}"
    );
    // once more: it is there
    assert_eq!(
        join(&folder, ["a", "b", "d"]),
        (0, "d written, 36 bytes".into())
    );
    let there = (0, "d is there already, 36 bytes".into());
    assert_eq!(join(&folder, ["a", "b", "d"]), there);
}

/// Stores a file of a folder along a route into another one there.
fn store(folder: &Path, names: [&str; 2], route: &[&str]) -> (i32, String) {
    walk("store", folder, names, route)
}

fn unstore(folder: &Path, names: [&str; 2]) -> (i32, String) {
    walk("unstore", folder, names, &[])
}

fn walk(call: &str, folder: &Path, names: [&str; 2], route: &[&str]) -> (i32, String) {
    let [file, target] = names.map(|name| folder.join(name));
    let mut words: Vec<&OsStr> = vec![call.as_ref(), file.as_ref(), target.as_ref()];
    words.extend(route.iter().map(OsStr::new));
    let (code, words) = line(rosters(&words));
    (code, words.replace(&format!("{}/", folder.display()), ""))
}

#[test]
fn a_roster_is_stored_and_taken_back() {
    let scratch = Scratch::new("walked");
    let (roster, text) = (sample("walked.roster"), sample("walked.txt"));
    let folder = scratch.folder("files", &[("a.roster", &roster), ("a.txt", &text)]);
    let stored = sample("walked.stored");
    let length = stored.len();
    // from bytes and from a text, the route in words or in one
    let cases: [(&str, &[&str]); 3] = [
        ("a.roster", &["2", "3", "1"]),
        ("a.txt", &["2", "3", "1"]),
        ("a.roster", &["2 3 1"]),
    ];
    for (place, (file, route)) in cases.into_iter().enumerate() {
        let target = format!("{place}.stored");
        let said = store(&folder, [file, &target], route);
        assert_eq!(said, (0, format!("{target} written, {length} bytes")));
        assert_eq!(files(&folder)[&target], stored);
    }
    let said = unstore(&folder, ["0.stored", "back.roster"]);
    let length = roster.len();
    let words = format!("back.roster written, {length} bytes; the route is 2 3 1");
    assert_eq!(said, (0, words));
    assert_eq!(files(&folder)["back.roster"], roster);
    // into the roster itself, which is there, and into a text
    let (code, words) = unstore(&folder, ["0.stored", "a.roster"]);
    assert_eq!(code, 0);
    assert!(words.starts_with("a.roster is there already"), "{words}");
    assert_eq!(unstore(&folder, ["0.stored", "back.txt"]).0, 0);
    assert_eq!(rostertext::pack(&files(&folder)["back.txt"]), Ok(roster));
}

#[test]
fn a_refused_route_is_told_apart_from_a_refused_roster() {
    let scratch = Scratch::new("routes");
    let roster = sample("walked.roster");
    let many = ["1"; 33];
    let folder = scratch.folder(
        "files",
        &[
            ("a.roster", &roster),
            ("cut", &roster[..9]),
            ("empty", &[0; 6]),
            ("twice.stored", &[&[3, 2, 2, 1], &roster[..]].concat()),
            ("route.stored", &[3, 2, 3]),
            ("count.stored", &[33]),
        ],
    );
    let before = files(&folder);
    let once = "refused by number 23: the route is not each stand exactly once";
    let short = "refused by number 1: the bytes end inside a field";
    let limit = "refused by number 2: a count or a list length is above its limit";
    let route = |why: &str| format!("the route for a.roster: {why}");
    let cases: [(&str, &[&str], String); 9] = [
        ("a.roster", &["2", "2", "1"], route(once)),
        ("a.roster", &["2", "3"], route(once)),
        ("a.roster", &[], route(once)),
        ("a.roster", &["2", "3", "0"], route(once)),
        ("a.roster", &many, route(limit)),
        (
            "a.roster",
            &["2", "x", "1"],
            route("'x' is no number of a stand"),
        ),
        (
            "a.roster",
            &["2", "256", "1"],
            route("'256' is no number of a stand"),
        ),
        // the roster's refusal comes before 23, and behind a count that is too high
        ("cut", &["2", "2", "1"], format!("cut: {short}")),
        ("cut", &many, format!("the route for cut: {limit}")),
    ];
    for (file, numbers, words) in cases {
        assert_eq!(store(&folder, [file, "target"], numbers), (1, words));
    }
    let cases = [
        ("twice.stored", once),
        ("route.stored", short),
        ("count.stored", limit),
    ];
    for (file, why) in cases {
        assert_eq!(
            unstore(&folder, [file, "target"]),
            (1, format!("{file}: {why}"))
        );
    }
    let words = "a.roster: it is there with other bytes, and stays";
    let said = store(&folder, ["a.roster", "a.roster"], &["2", "3", "1"]);
    assert_eq!(said, (1, words.to_owned()));
    assert_eq!(files(&folder), before);
    // a roster without stands has a route without numbers
    assert_eq!(store(&folder, ["empty", "target"], &[]).0, 0);
    let words = "back written, 6 bytes; the route is empty";
    assert_eq!(unstore(&folder, ["target", "back"]), (0, words.to_owned()));
}

#[test]
fn what_cannot_be_tried() {
    let usage = "usage: rosters join FIRST SECOND TARGET";
    let words: [&[&str]; 6] = [
        &[],
        &["store", "a"],
        &["unstore", "a", "b", "1"],
        &["join", "a", "b"],
        &["jion", "a", "b", "c"],
        &["halp"],
    ];
    for arguments in words {
        let said = rosters(arguments);
        assert_eq!((said.code, said.lines), (2, vec![]), "{arguments:?}");
        assert_eq!(said.errors[0], usage);
    }
    let said = rosters(&["help"]);
    assert_eq!((said.code, said.lines[0].as_str()), (0, usage));
    assert!(said.lines.iter().any(|line| line.contains("NAME.txt")));
}
