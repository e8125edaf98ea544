//! How long the proved calls take, against the reference written for speed and, where it
//! is there, a library from outside: same machine, same input, all built for release.
//! Each time is the least of many rounds, in microseconds a call; the ratio is ours to
//! theirs.

#![warn(clippy::undocumented_unsafe_blocks)]

mod blocking;
mod changes;
mod days;
mod districts;
mod document;
mod files;
mod finder;
mod growth;
mod lent;
mod longest;
mod measure;
mod offers;
mod peer;
mod plot;
mod ranges;
mod routes;
mod seasons;
mod stack;
mod table;
mod verdict;
mod votes;

use std::fs;
use std::path::{Path, PathBuf};
use std::process::ExitCode;

use measure::Effort;
use table::Table;

const USAGE: &str = "usage: bench [quick] [write] [NAME..]

bench          measures everything in three runs and prints the tables, each number the
               least of the three; some minutes
bench quick    makes every call once, to see that all of it runs and answers alike; its
               times say nothing
bench write    also puts the tables into docs/BENCHMARKS.md and the plot of how costs
               grow into docs/growth.svg
bench NAME..   only these tables, by their names in the document";

const RUNS: usize = 3;

/// A table of the document, and what is measured for it in words.
struct Part {
    name: &'static str,
    what: &'static str,
    measure: fn(Effort) -> Table,
}

const PARTS: [Part; 10] = [
    part("files", "reading and writing files, old seasons'", of_files),
    part("offers", "plain offers", offers::table),
    part("districts", "districts, routes and days", of_districts),
    part("ranges", "the least vote over ranges", ranges::table),
    part("votes", "comparisons, proposals, commits", votes::table),
    part("blocking", "the blocking pair", blocking::table),
    part("verdict", "verdicts", verdict::table),
    part("peer", "verdicts against LEMON", verdict::against_the_peer),
    part("finder", "the finder", finder::table),
    part("changes", "joining and leaving", changes::table),
];

/// How costs grow: its table is drawn too.
const GROWTH: Part = part("growth", "how costs grow", growth::table);

const fn part(name: &'static str, what: &'static str, measure: fn(Effort) -> Table) -> Part {
    Part {
        name,
        what,
        measure,
    }
}

fn of_files(effort: Effort) -> Table {
    let mut table = Table::new("files");
    files::rows(effort, &mut table);
    seasons::rows(effort, &mut table);
    table
}

fn of_districts(effort: Effort) -> Table {
    let mut table = Table::new("districts");
    districts::rows(effort, &mut table);
    routes::rows(effort, &mut table);
    days::rows(effort, &mut table);
    table
}

/// What is asked for.
struct Asked {
    effort: Effort,
    runs: usize,
    write: bool,
    parts: Vec<Part>,
}

impl Asked {
    fn new(words: &[String]) -> Option<Asked> {
        let mut asked = Asked {
            effort: Effort::FULL,
            runs: RUNS,
            write: false,
            parts: Vec::new(),
        };
        for word in words {
            match word.as_str() {
                "quick" => (asked.effort, asked.runs) = (Effort::QUICK, 1),
                "write" => asked.write = true,
                name => asked.parts.push(all().find(|part| part.name == name)?),
            }
        }
        if asked.parts.is_empty() {
            asked.parts = all().collect();
        }
        Some(asked)
    }

    /// The tables, the least times of all runs in them. What is done is told as it is done.
    fn tables(&self) -> Vec<Table> {
        let mut tables: Vec<Table> = Vec::new();
        for run in 1..=self.runs {
            for (place, part) in self.parts.iter().enumerate() {
                eprintln!("bench: run {run} of {}: {}", self.runs, part.what);
                let table = (part.measure)(self.effort);
                match tables.get_mut(place) {
                    Some(before) => before.merge(table),
                    None => tables.push(table),
                }
            }
        }
        tables
    }
}

fn all() -> impl Iterator<Item = Part> {
    PARTS.into_iter().chain([GROWTH])
}

fn docs(name: &str) -> PathBuf {
    Path::new(env!("CARGO_MANIFEST_DIR"))
        .join("../../docs")
        .join(name)
}

/// Puts the tables into the document and the plot beside it; what is said of all of them
/// only if all are there.
fn write(asked: &Asked, tables: &[Table], load: &str) -> Result<(), String> {
    let path = docs("BENCHMARKS.md");
    let document = fs::read_to_string(&path).map_err(|error| error.to_string())?;
    let mut parts: Vec<document::Part> = tables.iter().map(document::Part::of).collect();
    if tables.len() == all().count() {
        parts.push(document::Part::measured(asked.runs, load));
        parts.push(document::Part::above(tables));
    }
    let made = document::rewritten(&document, &parts)?;
    fs::write(path, made).map_err(|error| error.to_string())?;
    match tables.iter().find(|table| table.name == GROWTH.name) {
        Some(table) => {
            fs::write(docs("growth.svg"), growth::picture(table)).map_err(|error| error.to_string())
        }
        None => Ok(()),
    }
}

fn main() -> ExitCode {
    let words: Vec<String> = std::env::args().skip(1).collect();
    let Some(asked) = Asked::new(&words) else {
        eprintln!("{USAGE}");
        return ExitCode::from(2);
    };
    let load = document::load();
    let tables = asked.tables();
    for table in &tables {
        println!("## {}\n\n{table}", table.name);
    }
    println!("{}", document::Part::above(&tables).text);
    if asked.write {
        if let Err(problem) = write(&asked, &tables, &load) {
            eprintln!("bench: {problem}");
            return ExitCode::FAILURE;
        }
    }
    ExitCode::SUCCESS
}
