//! What of docs/BENCHMARKS.md the benchmark writes: the tables, between
//! `<!-- bench: NAME -->` and `<!-- bench: end -->`, and from all of them where and when
//! they were measured and which rows are slower than the reference.

use std::fs;
use std::process::Command;

use crate::peer;
use crate::table::Table;

const END: &str = "<!-- bench: end -->";

/// A part of the document by its name.
pub struct Part {
    pub name: &'static str,
    pub text: String,
}

impl Part {
    pub fn of(table: &Table) -> Part {
        Part {
            name: table.name,
            text: table.to_string(),
        }
    }

    /// Where, when and how it was measured. It asks the system, so that nobody needs to
    /// remember; the load tells whether there was anything else to do.
    pub fn measured(runs: usize, load: &str) -> Part {
        let processors = std::thread::available_parallelism().map_or(1, |number| number.get());
        let text = format!(
            "Measured on {} at commit {}: {processors} processors ({}), load {load} at the start. {runs} runs; each number is the least of \
             the {runs}, the ratio that of the least numbers. LEMON's version: {}.\n",
            said("date", &["+%Y-%m-%d"]),
            said("git", &["rev-parse", "--short", "HEAD"]),
            model(),
            peer::version()
        );
        Part {
            name: "measured",
            text,
        }
    }

    /// The rows that are slower than the reference.
    pub fn above(tables: &[Table]) -> Part {
        let above = tables.iter().flat_map(Table::above);
        let mut above: Vec<(&str, f64)> = above.collect();
        above.sort_by(|one, other| other.1.total_cmp(&one.1));
        let rows = above
            .iter()
            .map(|(name, ratio)| format!("- {name}: {ratio:.2}\n"));
        let text = match above.len() {
            0 => "No row is slower than the reference.\n".to_owned(),
            1 => format!(
                "One row is slower than the reference:\n\n{}",
                rows.collect::<String>()
            ),
            many => format!(
                "{many} rows are slower than the reference:\n\n{}",
                rows.collect::<String>()
            ),
        };
        Part {
            name: "above",
            text,
        }
    }
}

/// The load of the last minute.
pub fn load() -> String {
    let told = fs::read_to_string("/proc/loadavg").unwrap_or_default();
    told.split(' ').next().unwrap_or("unknown").to_owned()
}

/// The processor's name.
fn model() -> String {
    let told = fs::read_to_string("/proc/cpuinfo").unwrap_or_default();
    let mut names = told
        .lines()
        .filter_map(|line| line.strip_prefix("model name"));
    let name = names.next().and_then(|rest| rest.split_once(": "));
    name.map_or("unknown".to_owned(), |(_, name)| name.to_owned())
}

/// What a program of the system says.
fn said(program: &str, words: &[&str]) -> String {
    let output = Command::new(program).args(words).output();
    let text = output.ok().filter(|output| output.status.success());
    let text = text.and_then(|output| String::from_utf8(output.stdout).ok());
    text.map_or("unknown".to_owned(), |text| text.trim().to_owned())
}

/// The document with the parts in their places; a part without a place is an error.
pub fn rewritten(document: &str, parts: &[Part]) -> Result<String, String> {
    let mut text = document.to_owned();
    for Part { name, text: part } in parts {
        let mark = format!("<!-- bench: {name} -->\n");
        let place = text
            .split_once(&mark)
            .and_then(|(before, rest)| Some((before, rest.split_once(END)?)));
        let Some((before, (_, behind))) = place else {
            return Err(format!("the document has no place for {name}"));
        };
        text = format!("{before}{mark}{part}{END}{behind}");
    }
    Ok(text)
}

#[cfg(test)]
mod tests {
    use super::*;

    fn table() -> Table {
        let mut table = Table::new("files");
        table.put("read", vec![1.0, 2.0]);
        table.put("write", vec![3.0, 2.0]);
        table
    }

    #[test]
    fn a_table_goes_to_its_place() {
        let parts = [Part::of(&table())];
        let document = "# A\n\n<!-- bench: files -->\nold\n<!-- bench: end -->\n\nb\n";
        let made = rewritten(document, &parts).expect("a place");
        let told = "| call | proved, us | reference, us | ratio |\n|---|---|---|---|\n\
                    | read | 1.00 | 2.00 | 0.50 |\n| write | 3.00 | 2.00 | 1.50 |\n";
        assert_eq!(
            made,
            format!("# A\n\n<!-- bench: files -->\n{told}<!-- bench: end -->\n\nb\n")
        );
        assert_eq!(rewritten(&made, &parts).expect("a place"), made);
        assert!(rewritten("no place", &parts).is_err());
    }

    #[test]
    fn rows_above_the_reference_are_told() {
        let part = Part::above(&[table()]);
        assert_eq!(
            part.text,
            "One row is slower than the reference:\n\n- write: 1.50\n"
        );
    }
}
