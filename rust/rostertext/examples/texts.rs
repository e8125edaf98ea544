//! `texts COUNT`: random texts, whole and broken, and what this crate makes of each:
//! lines of the text, the roster's bytes and the text that they are turned back into,
//! or of the text and the problem. Bytes are in hexadecimal digits, parts apart by
//! tabs. The page for crew leaders reads texts in the browser, and its tests hold it
//! against this.

use std::io::{self, BufWriter, Write};

use reference::random::{self, Random};
use rostertext::{pack, print, unpack};

/// What is put into a text, or in the place of a letter of it: letters of the form,
/// letters that look like them, numbers at the limits, white space of all kinds.
const PIECES: [&str; 46] = [
    " ",
    "\t",
    "\r",
    "\n",
    "\r\n",
    "\u{b}",
    "\u{85}",
    "\u{a0}",
    "\u{2003}",
    "\u{2028}",
    "\u{3000}",
    "\u{feff}",
    "\u{200b}",
    "#",
    ":",
    "[",
    "]",
    "[]",
    "/",
    "/1",
    "/3",
    "/4",
    "/0",
    "//",
    "-",
    "+",
    "0",
    "1",
    "8",
    "9",
    "32",
    "33",
    "64",
    "255",
    "007",
    "256",
    "18446744073709551615",
    "18446744073709551616",
    "99999999999999999999999",
    "quota",
    "quota 1",
    "surveyor",
    "stand",
    "surveyor 1",
    "ß",
    "٣",
];

fn main() -> io::Result<()> {
    let count = std::env::args().nth(1).and_then(|word| word.parse().ok());
    let mut random = Random::new(207);
    let mut out = BufWriter::new(io::stdout());
    for _ in 0..count.unwrap_or(1000) {
        let text = text(&mut random);
        write!(out, "{}\t", hex(&text))?;
        match pack(&text) {
            Ok(bytes) => {
                let back = unpack(&bytes).expect("it was packed");
                writeln!(out, "{}\t{}", hex(&bytes), hex(&back))?;
            }
            Err(problem) => writeln!(out, "{problem}")?,
        }
    }
    out.flush()
}

/// The text of a random roster, most of them with a few letters changed.
fn text(random: &mut Random) -> Vec<u8> {
    let shape = if random.chance(5) {
        random::any_shape(random)
    } else {
        random::small_shape(random)
    };
    let mut text = print(&random::roster(random, &shape));
    if random.chance(30) {
        text = text.replace(" quota 1:", ":");
    }
    if random.chance(30) {
        text = ties_shuffled(random, &text);
    }
    if random.chance(15) {
        text = shuffled(random, &text);
    }
    match random.below(25) {
        0 => text = full(&text),
        1 => text = crowded(&text),
        2 | 3 => text = longer(random, &text),
        _ => {}
    }
    let changes = random.below(4);
    let mut letters: Vec<char> = text.chars().collect();
    for _ in 0..changes {
        change(random, &mut letters);
    }
    let mut bytes = letters.into_iter().collect::<String>().into_bytes();
    if random.chance(1) {
        let at = random.below(bytes.len() + 1);
        bytes.insert(at, 0xff);
    }
    bytes
}

/// The entries of each tie in any order.
fn ties_shuffled(random: &mut Random, text: &str) -> String {
    let mut lines = String::new();
    for line in text.lines() {
        let (front, tie) = line.split_once('[').unwrap_or((line, ""));
        let mut entries: Vec<&str> = tie.trim_end_matches(']').split_whitespace().collect();
        random.shuffle(&mut entries);
        lines.push_str(front);
        if !entries.is_empty() {
            lines.push_str(&format!("[{}]", entries.join(" ")));
        }
        lines.push('\n');
    }
    lines
}

/// The lines in another order.
fn shuffled(random: &mut Random, text: &str) -> String {
    let mut lines: Vec<&str> = text.lines().collect();
    random.shuffle(&mut lines);
    lines.join("\n")
}

/// Every quota as large as can be, which may be too large for a side.
fn full(text: &str) -> String {
    let line = |line: &str| match line.split_once(" quota ") {
        Some((front, behind)) => format!(
            "{front} quota 8{}\n",
            behind.trim_start_matches(|letter: char| letter.is_ascii_digit())
        ),
        None => format!("{line}\n"),
    };
    text.lines().map(line).collect()
}

/// One stand more than can be.
fn crowded(text: &str) -> String {
    let stands = text
        .lines()
        .filter(|line| line.starts_with("stand"))
        .count();
    let more: String = (stands + 1..=33)
        .map(|stand| format!("stand {stand} quota 0:\n"))
        .collect();
    format!("{text}{more}")
}

/// A line with an entry more, or with many.
fn longer(random: &mut Random, text: &str) -> String {
    let at = random.below(text.lines().count().max(1));
    let entry = [" 1", " 2", " 1/2", " 1 1/2 1/3 2 2/2 2/3 3 3/2 3/3 4 4/2 4/3 5 5/2 5/3 6 6/2 6/3 7 7/2 7/3 8 8/2 8/3 9 9/2 9/3 10 10/2 10/3 11 11/2 11/3"];
    let more = entry[random.below(entry.len())];
    let line =
        |(place, line): (usize, &str)| format!("{line}{}\n", if place == at { more } else { "" });
    text.lines().enumerate().map(line).collect()
}

/// A letter taken away, or a piece put in, or in the place of a letter or of a number.
fn change(random: &mut Random, letters: &mut Vec<char>) {
    let mut at = random.below(letters.len() + 1);
    let piece = PIECES[random.below(PIECES.len())];
    let way = random.below(4);
    let mut gone = usize::from(way > 0 && at < letters.len());
    if way == 3 {
        let digit = |place: usize| letters.get(place).is_some_and(char::is_ascii_digit);
        while at < letters.len() && !digit(at) {
            at += 1;
        }
        gone = (at..).take_while(|&place| digit(place)).count();
    }
    let comes = if way == 1 { "" } else { piece };
    letters.splice(at..at + gone, comes.chars());
}

fn hex(bytes: &[u8]) -> String {
    bytes.iter().map(|byte| format!("{byte:02x}")).collect()
}
