//! The command `sheet` on files: the tables it prints, and what it says of files
//! that it cannot use.

mod common;

use std::fs;
use std::path::{Path, PathBuf};
use std::process::Command;

use common::root;
use planner::{Desk, Entry, Sheet};
use reference::plan;
use reference::random::{self, any_shape, Random};
use reference::roster::{self, Roster, Side};

/// What the command said: its exit code and its two outputs.
#[derive(Debug, PartialEq, Eq)]
struct Said {
    code: i32,
    text: String,
    errors: String,
}

fn sheet(arguments: &[&str]) -> Said {
    let output = Command::new(env!("CARGO_BIN_EXE_sheet"))
        .args(arguments)
        .output()
        .expect("the command starts");
    let text = |bytes| String::from_utf8(bytes).expect("plain text");
    Said {
        code: output.status.code().expect("the command ends by itself"),
        text: text(output.stdout),
        errors: text(output.stderr),
    }
}

fn word(path: &Path) -> &str {
    path.to_str().expect("a plain name")
}

/// The table of a plan, by its files.
fn table(rows: &str, roster: &Path, plan: &Path) -> String {
    let said = sheet(&[rows, word(roster), word(plan)]);
    assert_eq!((said.code, said.errors.as_str()), (0, ""), "{plan:?}");
    said.text
}

#[test]
fn samples() {
    for name in ["days", "district"] {
        let sample = root().join("samples").join(name);
        let [roster, plan] = ["roster", "plan"].map(|end| sample.with_extension(end));
        for rows in ["surveyors", "stands"] {
            let stored = fs::read_to_string(sample.with_extension(rows)).expect("a table");
            assert_eq!(table(rows, &roster, &plan), stored, "{name} {rows}");
        }
    }
}

/// A roster's and a plan's file for one test, removed at its end.
struct Files {
    roster: PathBuf,
    plan: PathBuf,
}

impl Files {
    fn new(name: &str, roster: &[u8], plan: &[u8]) -> Files {
        let path = std::env::temp_dir().join(format!("crew-{}-{name}", std::process::id()));
        let files = Files {
            roster: path.with_extension("roster"),
            plan: path.with_extension("plan"),
        };
        fs::write(&files.roster, roster).expect("a file");
        fs::write(&files.plan, plan).expect("a file");
        files
    }
}

impl Drop for Files {
    fn drop(&mut self) {
        // what stays behind is in the folder for such things
        let _ = fs::remove_file(&self.roster);
        let _ = fs::remove_file(&self.plan);
    }
}

/// What a table must show: for each node of a side, day by day, the other end of its
/// entry and the shift.
fn cells(roster: &Roster, side: Side, sheet: &Sheet) -> Vec<Vec<String>> {
    let ends = |entry: &Entry| match side {
        Side::Surveyors => (entry.surveyor, entry.stand),
        Side::Stands => (entry.stand, entry.surveyor),
    };
    let numbers = (1..).zip(roster.nodes(side));
    let row = |(number, _)| -> Vec<String> {
        let cell = |day: &Vec<Entry>| {
            let mut own = day.iter().filter(|entry| ends(entry).0 == number);
            let cell = own.next().map_or("-".to_owned(), |entry| {
                let stroke = format!("{}/{}", ends(entry).1, entry.shift);
                stroke.strip_suffix("/1").unwrap_or(&stroke).to_owned()
            });
            assert!(own.next().is_none(), "two entries on one day");
            cell
        };
        let days = sheet.days.iter().map(cell);
        std::iter::once(format!("{number}")).chain(days).collect()
    };
    numbers.map(row).collect()
}

#[test]
fn random_plans() {
    let mut random = Random::new(2_095);
    for _ in 0..60 {
        let shape = any_shape(&mut random);
        let roster = random::roster(&mut random, &shape);
        let chosen = random::maximal_plan(&mut random, &roster);
        let (bytes, plan) = (roster::write(&roster), plan::write(&roster, &chosen));
        let mut desk = Desk::open();
        desk.load_roster(&bytes).expect("accepted");
        desk.load_plan(&plan).expect("accepted");
        let held = desk.sheet().expect("a plan is held");
        let files = Files::new("sheet", &bytes, &plan);
        for (rows, side) in [("surveyors", Side::Surveyors), ("stands", Side::Stands)] {
            let text = table(rows, &files.roster, &files.plan);
            let mut lines = text.lines();
            let heading = lines.next().expect("a heading");
            let days: Vec<String> = (1..=held.days.len())
                .map(|day| format!("day {day}"))
                .collect();
            let words: Vec<&str> = heading
                .split("  ")
                .map(str::trim)
                .filter(|word| !word.is_empty())
                .collect();
            assert_eq!(words[0], rows.trim_end_matches('s'));
            assert_eq!(words[1..], days);
            let shown = lines.map(|line| line.split_whitespace().map(str::to_owned).collect());
            assert_eq!(
                shown.collect::<Vec<Vec<String>>>(),
                cells(&roster, side, &held)
            );
            // the columns are in line
            assert!(text.lines().all(|line| line.len() == heading.len()));
        }
    }
}

#[test]
fn words_for_what_is_wrong() {
    let roster = [1, 1, 1, 1, 1, 0, 1, 1, 1, 1, 0, 1, 0, 1, 1];
    let said = |name: &str, roster: &[u8], plan: &[u8]| {
        let files = Files::new(name, roster, plan);
        let said = sheet(&["surveyors", word(&files.roster), word(&files.plan)]);
        assert_eq!((said.code, said.text.as_str()), (2, ""));
        said.errors
    };
    let errors = said("bad-plan", &roster, &[1, 1, 2, 1]);
    assert!(
        errors.ends_with("bad-plan.plan: refused by number 10: a plan pair is not in the roster\n")
    );
    let errors = said("bad-roster", &[1, 9], &[0]);
    let words = "a quota is above 8, or the quotas of one side are above 64 together";
    assert!(errors.ends_with(&format!(
        "bad-roster.roster: refused by number 3: {words}\n"
    )));

    let files = Files::new("gone", &roster, &[0]);
    let missing = files.roster.with_extension("none");
    let said = sheet(&["stands", word(&files.roster), word(&missing)]);
    assert_eq!((said.code, said.text.as_str()), (2, ""));
    assert!(said.errors.contains("gone.none: it cannot be read: "));
    // an empty plan has no days, and every node a row
    assert_eq!(
        table("stands", &files.roster, &files.plan),
        "stand\n    1\n"
    );
}

#[test]
fn usage_and_help() {
    let said = sheet(&[]);
    assert_eq!(said.code, 2);
    assert!(said
        .errors
        .starts_with("usage: sheet surveyors ROSTER PLAN\n"));
    assert_eq!(sheet(&["days", "a", "b"]), said);
    let said = sheet(&["help"]);
    assert_eq!((said.code, said.errors.as_str()), (0, ""));
    assert!(said.text.contains("a column for each day"));
}
