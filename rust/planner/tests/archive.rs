//! The static library and the program as built: neither has a table of votes,
//! be it as constants or as code that writes one. A compiler may turn a table
//! of constants into stores to the stack, so both are looked at. And the calls that
//! the library exports are those that the header declares.

mod common;

use std::collections::BTreeSet;
use std::path::{Path, PathBuf};
use std::process::Command;

use common::{program, root};
use reference::limits::EMPTY_RANK;

/// The bytes of a table with a vote for each two ranks.
const TABLE: usize = EMPTY_RANK as usize * EMPTY_RANK as usize;

fn library() -> PathBuf {
    root().join("target/staticlib/libabi.a")
}

fn output(tool: &str, words: &[&str], file: &Path) -> String {
    let output = Command::new(tool).args(words).arg(file).output();
    let output = output.unwrap_or_else(|error| panic!("{tool}: {error}"));
    assert!(output.status.success(), "{tool} {words:?} {file:?}");
    String::from_utf8(output.stdout).expect("plain text")
}

/// The bytes of all sections of data that the compiler made.
fn data_bytes(file: &Path) -> usize {
    let sections = output("size", &["-A"], file);
    let data = sections.lines().filter_map(|line| {
        let mut words = line.split_whitespace();
        let name = words.next()?;
        let named = [".rodata", ".data", ".lrodata"]
            .iter()
            .any(|start| name.starts_with(start));
        named.then(|| words.next()?.parse::<usize>().ok()).flatten()
    });
    data.sum()
}

/// How many bytes an instruction writes by a move to memory.
fn moved(name: &str, operands: &str) -> usize {
    let operands = operands.split('#').next().unwrap_or("").trim_end();
    if !name.contains("mov") || !operands.ends_with(')') {
        return 0;
    }
    match name {
        "movb" => 1,
        "movw" => 2,
        "movl" => 4,
        "mov" | "movq" => 8,
        _ => 16,
    }
}

/// The most bytes that a stretch of code without a branch or a call writes, and
/// the function that it is in.
fn longest_stretch(file: &Path) -> (usize, String) {
    let code = output("objdump", &["-d", "--no-show-raw-insn"], file);
    let mut function = "";
    let mut longest = (0, String::new());
    let mut bytes = 0;
    for line in code.lines() {
        let Some((_, instruction)) = line.split_once('\t') else {
            function = line;
            bytes = 0;
            continue;
        };
        let (name, operands) = instruction.split_once(' ').unwrap_or((instruction, ""));
        if name.starts_with('j') || name == "call" || name == "ret" {
            bytes = 0;
        }
        bytes += moved(name, operands);
        if bytes > longest.0 {
            longest = (bytes, function.to_owned());
        }
    }
    longest
}

fn has_no_table(file: &Path) {
    let data = data_bytes(file);
    let (bytes, function) = longest_stretch(file);
    println!("{file:?}: {data} bytes of data; at most {bytes} written in a row, in {function}");
    assert!(data < TABLE);
    // that the code was read at all
    assert!(bytes > 0);
    assert!(bytes < TABLE);
}

#[test]
fn no_table_of_votes_in_the_static_library() {
    has_no_table(&library());
}

#[test]
fn no_table_of_votes_in_the_program() {
    has_no_table(&program());
}

/// How the name of each exported call begins.
const PREFIX: &str = "crew_";

/// Where the header turns from the calls to what it adds for a reader.
const ADDED: &str = "/* ---- from here on nothing is exported";

/// The calls that a text declares or makes: the names before a parenthesis.
fn calls(text: &str) -> BTreeSet<&str> {
    let (text, _) = text.split_once(ADDED).unwrap_or((text, ""));
    let names = text.match_indices(PREFIX).filter_map(|(start, _)| {
        let (name, _) = text[start..].split_once('(')?;
        let plain = |letter: char| letter.is_ascii_lowercase() || letter == '_';
        name.chars().all(plain).then_some(name)
    });
    names.collect()
}

#[test]
fn every_exported_call_is_declared_and_made() {
    let symbols = output("nm", &["--defined-only", "--extern-only"], &library());
    let names = symbols
        .lines()
        .filter_map(|line| line.split(' ').next_back());
    let exported: BTreeSet<&str> = names.filter(|name| name.starts_with(PREFIX)).collect();
    assert!(!exported.is_empty());
    for file in ["include/crew.h", "c/desk.c", "rust/planner/src/ffi.rs"] {
        let text = std::fs::read_to_string(root().join(file)).expect("a text");
        assert_eq!(calls(&text), exported, "{file}");
    }
}
