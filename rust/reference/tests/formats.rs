//! docs/FORMATS.md tells the truth: its bytes are those of the samples, its sizes
//! and limits those of the limits, its refusals those that files meet, with their
//! groups and their words.

use std::path::{Path, PathBuf};

use reference::limits::{
    MAX_DAY_BYTES, MAX_ENTRIES, MAX_LIST, MAX_NODES, MAX_PAIRING_BYTES, MAX_PLAN_BYTES,
    MAX_PLAN_PAIRS, MAX_QUOTA, MAX_QUOTA_SUM, MAX_RANK_BYTES, MAX_ROSTER_BYTES, MAX_SHIFT,
    MAX_STORED_BYTES, PAIR_FIELD,
};
use reference::refusal::{group_of, ALL};
use reference::roster;

fn root() -> PathBuf {
    Path::new(env!("CARGO_MANIFEST_DIR")).join("../..")
}

fn page() -> String {
    std::fs::read_to_string(root().join("docs/FORMATS.md")).expect("the page is there")
}

/// The numbers at the front of a line; what follows them is told to the reader.
fn front(line: &str) -> Vec<u8> {
    let words = line.split(' ');
    words.map_while(|word| word.parse().ok()).collect()
}

/// The cells of a table's row.
fn cells(line: &str) -> Option<Vec<&str>> {
    let row = line.strip_prefix('|')?.strip_suffix('|')?;
    Some(row.split('|').map(str::trim).collect())
}

/// The rows of the table under that head, of which there is one.
fn table<'a>(page: &'a str, head: &str) -> Vec<Vec<&'a str>> {
    let (_, behind) = page.split_once(head).expect("a table with this head");
    let rows = behind.lines().skip(2).map_while(cells);
    let rows: Vec<Vec<&str>> = rows.collect();
    assert!(!rows.is_empty(), "{head}");
    rows
}

#[test]
fn the_bytes_are_those_of_the_samples() {
    let page = page();
    let mut blocks = 0;
    for block in page.split("```bytes ").skip(1) {
        let (name, rest) = block.split_once('\n').expect("a file's name");
        let (lines, _) = rest.split_once("```").expect("an end");
        let told: Vec<u8> = lines.lines().flat_map(front).collect();
        let file = std::fs::read(root().join(name)).expect("a sample");
        assert_eq!(told, file, "{name}");
        blocks += 1;
    }
    assert_eq!(blocks, 8);
}

#[test]
fn the_limits_and_sizes_are_those_of_the_limits() {
    let page = page();
    let number = |cell: &str| -> Vec<usize> {
        let words = cell.split(' ').map(|word| word.replace(',', ""));
        words.filter_map(|word| word.parse().ok()).collect()
    };
    let limits: Vec<Vec<usize>> = table(&page, "| what | limit |")
        .iter()
        .map(|row| number(row[1]))
        .collect();
    let expected = [
        vec![MAX_NODES],
        vec![usize::from(MAX_QUOTA)],
        vec![MAX_QUOTA_SUM],
        vec![1, usize::from(MAX_SHIFT)],
        vec![MAX_LIST],
        vec![MAX_ENTRIES],
        vec![MAX_PLAN_PAIRS],
    ];
    assert_eq!(limits, expected);

    let header = std::fs::read_to_string(root().join("include/crew.h")).expect("the header");
    let expected = [
        MAX_ROSTER_BYTES,
        MAX_PLAN_BYTES,
        MAX_STORED_BYTES,
        MAX_DAY_BYTES,
        MAX_PAIRING_BYTES,
        MAX_RANK_BYTES,
        PAIR_FIELD * MAX_ENTRIES,
        MAX_ENTRIES,
    ];
    let sizes = table(&page, "| what | bytes | in crew.h |");
    assert_eq!(sizes.len(), expected.len());
    for (row, expected) in sizes.iter().zip(expected) {
        assert_eq!(number(row[1]), [expected], "{row:?}");
        let defined = format!("#define {} {expected}\n", row[2]);
        assert!(header.contains(&defined), "{defined}");
    }
}

#[test]
fn every_refusal_has_its_group_and_its_words() {
    let page = page();
    let rows = table(&page, "| number | group | text |");
    let told: Vec<[String; 3]> = rows
        .iter()
        .map(|row| [row[0], row[1], row[2]].map(str::to_owned))
        .collect();
    let expected: Vec<[String; 3]> = ALL
        .iter()
        .map(|refusal| {
            let number = refusal.number();
            [
                number.to_string(),
                group_of(number).to_string(),
                refusal.to_string(),
            ]
        })
        .collect();
    assert_eq!(told, expected);
}

#[test]
fn the_files_meet_the_refusals_told() {
    let page = page();
    let rows = table(&page, "| bytes | refusal | because |");
    for row in &rows {
        let met = roster::read(&front(row[0])).map_err(|refusal| refusal.number());
        assert_eq!(met.err(), row[1].parse().ok(), "{row:?}");
    }
    assert!(rows.len() > 10);
}
