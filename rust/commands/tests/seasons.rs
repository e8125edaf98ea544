//! The command `seasons` on folders of season files: what it writes and says,
//! and that nothing else changes.

mod common;

use std::collections::BTreeMap;
use std::ffi::OsStr;
use std::fs;
use std::path::Path;

use common::{files, root, run, Said, Scratch};

fn seasons<S: AsRef<OsStr>>(arguments: &[S]) -> Said {
    run(env!("CARGO_BIN_EXE_seasons"), arguments)
}

/// Runs the command; nothing in the folder changes.
fn turn(way: &str, folder: &Path, target: &Path) -> Said {
    let before = files(folder);
    let said = seasons(&[way.as_ref(), folder.as_os_str(), target.as_os_str()]);
    assert_eq!(files(folder), before);
    said
}

/// The program's roster as an old file and as a new one.
const OLD: &[u8] = &[2, 1, 1, 1, 1, 2, 0, 1, 1, 1, 1, 2, 0, 2, 0, 1, 2];
const NEW: &[u8] = &[
    2, 1, 1, 1, 1, 2, 0, 1, 1, 1, 1, 1, 1, 2, 0, 2, 0, 1, 1, 2, 1,
];
/// One surveyor and one stand in shifts 1 and 3.
const SHIFTS: &[u8] = &[1, 2, 1, 2, 2, 0, 2, 1, 3, 1, 1, 2, 0, 1, 1, 1, 1, 1, 3];

#[test]
fn the_old_samples_there_and_back() {
    let scratch = Scratch::new("samples");
    let (new, back) = (scratch.target("new"), scratch.target("back"));
    let samples = root().join("samples/old");
    let said = turn("to-new", &samples, &new);
    let reasons = [
        "byte-behind.roster: refused by number 9: there are bytes after the end",
        "cut-short.roster: refused by number 1: the bytes end inside a field",
        "one-side.roster: refused by number 8: a pair is listed by one side only",
        "quota-nine.roster: refused by number 3: a quota is above 8, or the quotas of one side are above 64 together",
        "tied.both.plan: refused by number 12: a pair takes a node past its quota",
    ];
    assert_eq!(said.code, 1);
    assert_eq!(said.errors[0], "not turned:");
    let told: Vec<&str> = said.errors[1..].iter().map(|line| line.trim()).collect();
    assert_eq!(told, reasons);
    assert_eq!(
        said.lines[0],
        "1 of 21: beaten.roster turned, 24 bytes to 32"
    );
    assert_eq!(
        said.lines[17],
        "18 of 21: tied.both.plan not turned, refused by number 12: a pair takes a node past its quota"
    );
    assert_eq!(
        said.lines[21..],
        [
            "passed over: README.md",
            "16 turned, 0 there already, 5 not turned, 1 passed over"
        ]
    );

    let said = turn("to-old", &new, &back);
    assert_eq!((said.code, said.errors), (0, vec![]));
    let mut accepted = files(&samples);
    accepted.remove("README.md");
    for reason in reasons {
        let (name, _) = reason.split_once(':').expect("a name");
        accepted.remove(name).expect("a sample");
    }
    assert_eq!(files(&back), accepted);
}

#[test]
fn a_plan_stands_beside_its_roster() {
    let scratch = Scratch::new("plans");
    let folder = scratch.folder(
        "old",
        &[
            ("north.roster", OLD),
            ("north.plan", &[1, 1, 1]),
            ("north.2019.late.plan", &[1, 2, 1]),
            // of the longer name, which has no pairs
            ("north.2020.roster", &[0; 6]),
            ("north.2020.first.plan", &[0]),
            ("north.2020.plan", &[1, 1, 1]),
            ("northern.plan", &[0]),
            ("south.roster", &[1, 9]),
            ("south.plan", &[0]),
            (".plan", &[0]),
        ],
    );
    let target = scratch.target("new");
    let said = turn("to-new", &folder, &target);
    assert_eq!(said.code, 1);
    assert_eq!(
        said.errors,
        [
            "not turned:",
            "  north.2020.plan: refused by number 10: a plan pair is not in the roster",
            "  south.roster: refused by number 3: a quota is above 8, or the quotas of one side are above 64 together",
            "  south.plan: its roster south.roster is not turned",
            "  northern.plan: there is no roster of its name beside it",
        ]
    );
    let last = "5 turned, 0 there already, 4 not turned, 1 passed over";
    assert_eq!(said.lines.last().map(String::as_str), Some(last));
    let expected: [(&str, &[u8]); 5] = [
        ("north.2019.late.plan", &[1, 2, 1, 1]),
        ("north.2020.first.plan", &[0]),
        ("north.2020.roster", &[0; 6]),
        ("north.plan", &[1, 1, 1, 1]),
        ("north.roster", NEW),
    ];
    let expected = expected.map(|(name, bytes)| (name.to_owned(), bytes.to_vec()));
    assert_eq!(files(&target), BTreeMap::from(expected));
}

#[test]
fn other_shifts_do_not_go_back() {
    let scratch = Scratch::new("shifts");
    let folder = scratch.folder(
        "new",
        &[
            ("east.roster", SHIFTS),
            // it has only shift 1, but without its roster nobody could read it
            ("east.plan", &[1, 1, 1, 1]),
            ("west.roster", NEW),
            ("west.plan", &[1, 1, 1, 1]),
        ],
    );
    let target = scratch.target("old");
    let said = turn("to-old", &folder, &target);
    assert_eq!(
        said.errors,
        [
            "not turned:",
            "  east.roster: refused by number 19: the file has a shift other than 1, which an old file cannot hold",
            "  east.plan: its roster east.roster is not turned",
        ]
    );
    assert_eq!(
        files(&target).into_keys().collect::<Vec<_>>(),
        ["west.plan", "west.roster"]
    );
    assert_eq!(files(&target)["west.roster"], OLD);
    assert_eq!(files(&target)["west.plan"], [1, 1, 1]);
}

#[test]
fn nothing_is_overwritten() {
    let scratch = Scratch::new("there");
    let folder = scratch.folder(
        "old",
        &[
            ("a.roster", OLD),
            ("a.plan", &[0]),
            ("b.roster", OLD),
            ("b.plan", &[1, 1, 1]),
        ],
    );
    let there: [(&str, &[u8]); 2] = [("a.roster", &[7, 7]), ("b.roster", NEW)];
    let target = scratch.folder("new", &there);
    let said = turn("to-new", &folder, &target);
    assert_eq!(said.code, 1);
    assert_eq!(
        said.lines,
        [
            "1 of 4: a.roster not turned, the target has a file of this name with other bytes, which stays",
            "2 of 4: a.plan not turned, its roster a.roster is not turned",
            "3 of 4: b.roster is there already, 17 bytes to 21",
            "4 of 4: b.plan turned, 3 bytes to 4",
            "1 turned, 1 there already, 2 not turned, 0 passed over",
        ]
    );
    assert_eq!(files(&target)["a.roster"], [7, 7]);
    assert_eq!(files(&target)["b.roster"], NEW);
    assert_eq!(files(&target).len(), 3);

    // once more: all that could be turned is there
    fs::remove_file(target.join("a.roster")).expect("it is there");
    assert_eq!(turn("to-new", &folder, &target).code, 0);
    let said = turn("to-new", &folder, &target);
    let last = "0 turned, 4 there already, 0 not turned, 0 passed over";
    assert_eq!((said.code, said.lines[4].as_str()), (0, last));
}

#[test]
fn a_folder_is_not_turned_into_itself() {
    let scratch = Scratch::new("itself");
    let folder = scratch.folder("old", &[("a.roster", OLD)]);
    // turn looks whether the folder changed
    let said = turn("to-new", &folder, &folder);
    assert_eq!(said.code, 1);
}

#[test]
fn other_files_and_folders_are_passed_over() {
    let scratch = Scratch::new("others");
    let folder = scratch.folder(
        "old",
        &[("a.roster", OLD), ("notes", &[1]), ("a.ROSTER", OLD)],
    );
    fs::create_dir(folder.join("2018.roster")).expect("a new folder");
    let said = turn("to-new", &folder, &scratch.target("new"));
    assert_eq!(said.code, 0);
    assert_eq!(
        said.lines[1..],
        [
            "passed over: 2018.roster",
            "passed over: a.ROSTER",
            "passed over: notes",
            "1 turned, 0 there already, 0 not turned, 3 passed over",
        ]
    );
}

#[test]
fn a_file_of_any_length_is_refused() {
    let scratch = Scratch::new("long");
    let mut long = OLD.to_vec();
    long.resize(1_000_000, 0);
    let folder = scratch.folder("old", &[("a.roster", &long)]);
    let said = turn("to-new", &folder, &scratch.target("new"));
    let reason = "  a.roster: refused by number 9: there are bytes after the end";
    assert_eq!(said.errors, ["not turned:", reason]);
}

#[test]
fn what_cannot_be_tried() {
    let scratch = Scratch::new("words");
    let nowhere = scratch.target("nowhere");
    let said = turn_nothing(&["to-new".as_ref(), nowhere.as_os_str(), nowhere.as_os_str()]);
    assert!(
        said[0].starts_with(&format!("{}: ", nowhere.display())),
        "{said:?}"
    );
    assert!(!nowhere.exists());
    let usage = "usage: seasons to-new FOLDER TARGET";
    assert_eq!(turn_nothing::<&str>(&[])[0], usage);
    assert_eq!(turn_nothing(&["to-new"])[0], usage);
    assert_eq!(turn_nothing(&["to-next", "a", "b"])[0], usage);
    let said = seasons(&["help"]);
    assert_eq!((said.code, said.lines[0].as_str()), (0, usage));
    assert!(said
        .lines
        .iter()
        .any(|line| line.contains("NAME.WORD.plan")));
}

/// What the command says where nothing can be tried.
fn turn_nothing<S: AsRef<OsStr>>(arguments: &[S]) -> Vec<String> {
    let said = seasons(arguments);
    assert_eq!((said.code, said.lines), (2, vec![]));
    said.errors
}
