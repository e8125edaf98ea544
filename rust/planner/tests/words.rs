//! `include/crew.h` beside the calls: every refusal has the words that the wrapper
//! has for it, and a name; and every call on a desk has a function that takes a
//! pointer to the desk.

mod common;

use std::collections::BTreeSet;
use std::process::Command;

use common::root;
use planner::{Group, Refusal};
use reference::refusal::ALL;

fn header() -> String {
    std::fs::read_to_string(root().join("include/crew.h")).expect("the header")
}

/// What `c/words.c` prints.
fn words() -> String {
    let program = std::env::temp_dir().join(format!("crew-words-{}", std::process::id()));
    let built = Command::new("gcc")
        .args(["-std=c99", "-pedantic", "-Wall", "-Wextra", "-Werror", "-I"])
        .arg(root().join("include"))
        .arg(root().join("c/words.c"))
        .arg(root().join("target/staticlib/libabi.a"))
        .arg("-o")
        .arg(&program)
        .status();
    assert!(built.is_ok_and(|status| status.success()), "gcc words.c");
    let output = Command::new(&program).output().expect("the program starts");
    std::fs::remove_file(program).expect("the program was there");
    String::from_utf8(output.stdout).expect("plain text")
}

#[test]
fn every_refusal_has_the_words_of_the_wrapper() {
    let words = words();
    let lines: Vec<&str> = words.lines().collect();
    assert_eq!(lines.len(), 256);
    for (number, line) in (0..=255).zip(lines) {
        let (group, word) = match reference::refusal::group_of(number) {
            reference::refusal::Group::Form => (Group::Form, "1 form"),
            reference::refusal::Group::Content => (Group::Content, "2 content"),
            reference::refusal::Group::Plan => (Group::Plan, "3 plan"),
            reference::refusal::Group::Desk => (Group::Desk, "4 desk"),
        };
        let text = match number {
            0 => "accepted".to_owned(),
            _ => Refusal { number, group }.to_string(),
        };
        assert_eq!(line, format!("{number} {word} {text}"));
    }
}

/// A name of the reference as a constant of C: `EntryTwice` is `ENTRY_TWICE`.
fn constant(name: &str) -> String {
    let mut constant = String::new();
    for letter in name.chars() {
        if letter.is_ascii_uppercase() && !constant.is_empty() {
            constant.push('_');
        }
        constant.push(letter.to_ascii_uppercase());
    }
    constant
}

#[test]
fn every_refusal_has_a_name() {
    let header = header();
    let named = header.lines().filter_map(|line| {
        let (name, number) = line
            .trim()
            .strip_prefix("CREW_REFUSED_")?
            .split_once(" = ")?;
        let number: u8 = number.trim_end_matches(',').parse().ok()?;
        Some((name.to_owned(), number))
    });
    let named: Vec<(String, u8)> = named.collect();
    let expected = ALL.iter();
    let expected: Vec<(String, u8)> = expected
        .map(|refusal| (constant(&format!("{refusal:?}")), refusal.number()))
        .collect();
    assert_eq!(named, expected);
}

/// The names of functions whose declaration has this word before the name and this
/// behind it, once all space is one.
fn between<'a>(text: &'a str, before: &str, behind: &str) -> BTreeSet<&'a str> {
    let starts = text.match_indices(before);
    let names = starts.filter_map(|(start, _)| {
        let (name, rest) = text[start + before.len()..].split_once('(')?;
        let plain = |letter: char| letter.is_ascii_lowercase() || letter == '_';
        (name.chars().all(plain) && rest.starts_with(behind)).then_some(name)
    });
    names.collect()
}

#[test]
fn every_call_on_a_desk_can_take_a_pointer() {
    let header = header();
    let by_value = between(&header, " crew_", "struct crew_desk desk");
    let mut by_pointer = between(&header, " crew_desk_", "struct crew_desk *desk");
    by_pointer.extend(between(
        &header,
        " crew_desk_",
        "const struct crew_desk *desk",
    ));
    assert!(!by_value.is_empty());
    assert_eq!(by_value, by_pointer);
}
