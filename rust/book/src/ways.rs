//! docs/WAYS.md: for each public call the functions that it goes through, in the order of the text.

use crate::code::Callee;
use crate::contents::Book;
use crate::documents::capital;
use crate::reach::call_name;
use std::collections::{HashMap, HashSet};
use std::fmt::Write;

/// A function that several others call is a stretch if its way has so many lines,
const SHARED: usize = 8;
/// and any that no public call names is if its way has so many.
const LONG: usize = 40;
/// A sentence with more characters is cut at a pause where it stands in a way.
const WIDE: usize = 120;

/// The chapters, each with the crates of its calls; the calls of all others are those on files.
const CHAPTERS: [(&str, &[&str]); 4] = [("The desk", &["desk"]), ("Calls on files", &[]), ("The program", &["program", "crew"]), ("The calls for C", &["abi"])];
const FILES: usize = 1;

/// The ways of a book.
pub struct Ways<'b, 'a> {
    book: &'b Book<'a>,
    /// the public calls, and the program's `main`
    calls: Vec<usize>,
    stretches: Vec<usize>,
    /// where each of them stands on the page
    anchors: HashMap<usize, String>,
}

/// A way: the calls that it is the way of, and its lines.
struct Way {
    heads: Vec<usize>,
    lines: String,
}

impl<'b, 'a> Ways<'b, 'a> {
    pub fn of(book: &'b Book<'a>) -> Self {
        let functions = &book.library().functions;
        let mains = (0..functions.len()).filter(|&f| functions[f].name == "main");
        let calls = book.calls.iter().map(|c| c.function).chain(mains).collect();
        let mut ways = Ways { book, calls, stretches: Vec::new(), anchors: HashMap::new() };
        ways.find_stretches();
        ways
    }

    /// The functions below the calls, each behind those that it calls.
    fn upwards(&self) -> Vec<usize> {
        let mut found = Vec::new();
        let mut seen = HashSet::new();
        for &call in &self.calls {
            self.visit(call, &mut seen, &mut found);
        }
        found
    }

    fn visit(&self, function: usize, seen: &mut HashSet<usize>, found: &mut Vec<usize>) {
        if seen.insert(function) {
            for g in self.book.graph.below(function) {
                self.visit(g, seen, found);
            }
            found.push(function);
        }
    }

    fn find_stretches(&mut self) {
        let all = self.upwards();
        let mut callers: HashMap<usize, usize> = HashMap::new();
        for g in all.iter().flat_map(|&f| self.book.graph.below(f)) {
            *callers.entry(g).or_default() += 1;
        }
        for f in all {
            if self.calls.contains(&f) {
                continue;
            }
            let lines = 1 + self.lines(f).lines().count();
            let shared = callers.get(&f).is_some_and(|&n| n > 1);
            let named = self.calls.iter().any(|&call| self.book.graph.below(call).any(|g| g == f));
            if (lines >= SHARED && shared) || (lines >= LONG && !named) {
                self.stretches.push(f);
            }
        }
    }

    fn has_own_way(&self, function: usize) -> bool {
        self.calls.contains(&function) || self.stretches.contains(&function)
    }

    fn name(&self, function: usize) -> String {
        let library = self.book.library();
        call_name(library, &library.functions[function])
    }

    /// The first sentence of a function's comment, cut where it has more than so many characters.
    fn says(&self, function: usize, width: usize) -> String {
        let note = &self.book.library().functions[function].note;
        let told: Vec<&str> = note.iter().map(String::as_str).filter(|l| !l.starts_with("----")).collect();
        sentence(&told.join(" "), width)
    }

    /// The lines below a function.
    fn lines(&self, function: usize) -> String {
        let mut made = String::new();
        self.write_lines(function, 0, &mut HashSet::from([function]), &mut made);
        made
    }

    fn write_lines(&self, function: usize, depth: usize, shown: &mut HashSet<usize>, made: &mut String) {
        let indent = "  ".repeat(depth);
        let mut small: Vec<String> = Vec::new();
        let flush = |small: &mut Vec<String>, made: &mut String| {
            if !small.is_empty() {
                let _ = writeln!(made, "{indent}- {}", small.join(", "));
                small.clear();
            }
        };
        for callee in &self.book.graph.calls[function] {
            let g = match callee {
                Callee::Own(g) if *g == function => continue,
                Callee::Own(g) => *g,
                Callee::Kit(name) => {
                    small.push(format!("`{name}`"));
                    continue;
                }
            };
            let name = self.name(g);
            if self.book.graph.calls[g].iter().all(|c| *c == Callee::Own(g)) {
                small.push(format!("`{name}`"));
            } else if self.has_own_way(g) {
                flush(&mut small, made);
                let anchor = self.anchors.get(&g).map_or("", String::as_str);
                let _ = writeln!(made, "{indent}- → [`{name}`](#{anchor})");
            } else if !shown.insert(g) {
                small.push(format!("`{name}` (above)"));
            } else {
                flush(&mut small, made);
                let _ = writeln!(made, "{indent}- `{name}`{}", behind(": ", &self.says(g, WIDE)));
                self.write_lines(g, depth + 1, shown, made);
            }
        }
        flush(&mut small, made);
    }

    fn chapter(&self, function: usize) -> usize {
        let library = self.book.library();
        let owner = library.crate_of(library.functions[function].file).unwrap_or("");
        CHAPTERS.iter().position(|c| c.1.contains(&owner)).unwrap_or(FILES)
    }

    /// The ways of some functions, those that are equal as one.
    fn gathered(&self, functions: impl Iterator<Item = usize>) -> Vec<Way> {
        let mut found: Vec<Way> = Vec::new();
        for f in functions {
            let lines = self.lines(f);
            match found.iter_mut().find(|w| !lines.is_empty() && w.lines == lines) {
                Some(way) => way.heads.push(f),
                None => found.push(Way { heads: vec![f], lines }),
            }
        }
        found
    }

    fn title(&self, way: &Way) -> String {
        way.heads.iter().map(|&f| self.name(f)).collect::<Vec<_>>().join(", ")
    }

    fn chapters(&self) -> Vec<(&'static str, Vec<Way>)> {
        let calls = CHAPTERS.iter().enumerate().map(|(n, c)| (c.0, self.gathered(self.calls.iter().copied().filter(|&f| self.chapter(f) == n))));
        let stretches = self.gathered(self.stretches.iter().rev().copied());
        calls.chain([("Stretches", stretches)]).collect()
    }

    /// The page, below the words at its head.
    pub fn page(mut self) -> String {
        for way in self.chapters().into_iter().flat_map(|c| c.1) {
            let anchor = anchor(&self.title(&way));
            self.anchors.extend(way.heads.iter().map(|&f| (f, anchor.clone())));
        }
        let chapters = self.chapters();
        let longest = chapters.iter().flat_map(|c| &c.1).map(|w| w.lines.lines().count()).max().unwrap_or(0);
        let mut made = format!(
            "{} calls and {} stretches, through {} functions; the longest way has {longest} lines. A function that several others call is a stretch if \
             its way has {SHARED} lines or more, and any that no public call names is if its way has {LONG} or more.\n",
            self.calls.len(),
            self.stretches.len(),
            self.upwards().len()
        );
        for (title, ways) in &chapters {
            let _ = write!(made, "\n## {title}\n");
            ways.iter().for_each(|way| self.write_way(way, &mut made));
        }
        made
    }

    fn write_way(&self, way: &Way, made: &mut String) {
        let _ = write!(made, "\n### {}\n\n", self.title(way));
        for &f in &way.heads {
            let says = self.says(f, usize::MAX);
            match (says.is_empty(), way.heads.len()) {
                (true, _) => {}
                (false, 1) => _ = write!(made, "{}.\n\n", capital(&says)),
                (false, _) => _ = write!(made, "`{}`: {says}.\n\n", self.name(f)),
            }
        }
        *made += if way.lines.is_empty() { "It calls no other function.\n" } else { &way.lines };
    }
}

fn behind(joint: &str, text: &str) -> String {
    if text.is_empty() {
        String::new()
    } else {
        format!("{joint}{text}")
    }
}

/// The place of a heading on the page.
fn anchor(title: &str) -> String {
    let kept = title.to_lowercase();
    kept.chars().filter(|c| c.is_alphanumeric() || matches!(c, '_' | '-' | ' ')).map(|c| if c == ' ' { '-' } else { c }).collect()
}

/// The first sentence of a comment; a long one up to its last pause that leaves it short enough, at a semicolon if there is one, then at a colon.
fn sentence(comment: &str, width: usize) -> String {
    let whole = comment.split(". ").next().unwrap_or("").trim().trim_end_matches(['.', ':']);
    if whole.chars().count() <= width {
        return marked(whole);
    }
    let pauses = pauses(whole);
    let last = |mark: char| pauses.iter().rev().find(|p| p.2 == mark && p.1 <= width);
    let cut = last(';').or(last(':')).or(last(',')).or(pauses.first());
    marked(&whole[..cut.map_or(whole.len(), |p| p.0)])
}

/// The pauses of a sentence outside of brackets and quotation marks: place, number of characters before, mark.
fn pauses(text: &str) -> Vec<(usize, usize, char)> {
    let (mut depth, mut quoted) = (0i32, false);
    let mut found = Vec::new();
    for (count, (at, c)) in text.char_indices().enumerate() {
        match c {
            '(' => depth += 1,
            ')' => depth -= 1,
            '"' | '`' => quoted = !quoted,
            ';' | ':' | ',' if depth == 0 && !quoted && text[at + 1..].starts_with(' ') => found.push((at, count, c)),
            _ => {}
        }
    }
    found
}

/// A text whose marks say themselves.
fn marked(text: &str) -> String {
    text.replace('*', "\\*").replace('<', "&lt;")
}

#[cfg(test)]
mod tests {
    use super::*;

    #[test]
    fn a_sentence_is_short_and_whole() {
        assert_eq!(sentence("Short. And more.", WIDE), "Short");
        let long = format!("One thing, {} (a, b; c) and so on; that is all", "and another ".repeat(9));
        assert_eq!(sentence(&long, WIDE), "One thing");
        let quoted = format!("It {} says \"this; and that\": so it is; and, last, so on", "and again ".repeat(8));
        assert_eq!(sentence(&quoted, WIDE), quoted.split("; and,").next().expect("its head"));
        assert_eq!(sentence("", WIDE), "");
    }

    #[test]
    fn headings_have_places() {
        assert_eq!(anchor("Desk::plan_to_new, Desk::plan_to_old"), "deskplan_to_new-deskplan_to_old");
    }
}
