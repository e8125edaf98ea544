//! From a sentence of the papers to the definitions that state it and the calls that come to them; and from a request to all of that.

use crate::contents::Book;
use crate::papers::Place;
use crate::reach::Names;
use std::collections::{BTreeMap, BTreeSet};

/// A quotation with all definitions and calls that quote it.
pub struct Sentence {
    pub place: Place,
    pub words: String,
    pub definitions: Vec<usize>,
    /// calls whose comment quotes it, or whose contract comes to one of the definitions
    pub calls: Vec<String>,
}

/// A request that has landed: its number, its title, and what quotes or names it.
pub struct Request {
    pub number: String,
    pub title: String,
    pub definitions: BTreeSet<usize>,
    pub calls: BTreeSet<String>,
    pub tests: Vec<String>,
}

impl Book<'_> {
    /// The quotations of the book's definitions and calls, in the papers' order.
    pub fn sentences(&self) -> Vec<Sentence> {
        let mut found: BTreeMap<(Place, String), (BTreeSet<usize>, BTreeSet<usize>)> = BTreeMap::new();
        for (&decl, quoted) in &self.quoted {
            if self.entries.contains(&decl) {
                for (words, place) in quoted {
                    found.entry((place.clone(), words.clone())).or_default().0.insert(decl);
                }
            }
        }
        for (n, call) in self.calls.iter().enumerate() {
            let note = &self.library().functions[call.function].note;
            for (words, place) in self.found(&note.join(" ")) {
                found.entry((place, words)).or_default().1.insert(n);
            }
        }
        let made = found.into_iter().map(|((place, words), (definitions, calls))| {
            let comes = self.calls.iter().enumerate();
            let comes = comes.filter(|(n, c)| calls.contains(n) || definitions.iter().any(|d| c.comes_to.contains(d)));
            let calls = comes.map(|(_, c)| c.name.clone()).filter(|n| !n.starts_with("crew_")).collect();
            Sentence { place, words, definitions: definitions.into_iter().collect(), calls }
        });
        made.collect()
    }

    /// Calls in few words: the desk's are one where all of them are meant.
    pub fn calls_told(&self, calls: &[String]) -> Vec<String> {
        let of_desk = |n: &str| n.starts_with("Desk::");
        let all = self.calls.iter().filter(|c| of_desk(&c.name)).count();
        let here = calls.iter().filter(|c| of_desk(c)).count();
        if here + 1 < all || here < 2 {
            return calls.to_vec();
        }
        let mut told = vec!["every call of the desk".to_string()];
        told.extend(calls.iter().filter(|c| !of_desk(c)).cloned());
        told
    }

    /// The requests that have landed, by the headings of docs/LANDINGS.md.
    pub fn requests(&self) -> Vec<Request> {
        let titles = self.landings.lines().filter_map(|l| l.strip_prefix("## W-"));
        let mut found: Vec<Request> =
            titles.filter_map(|t| t.split_once(' ')).map(|(number, title)| self.request(format!("W-{number}"), title.to_string())).collect();
        found.sort_by(|a, b| a.number.cmp(&b.number));
        found
    }

    fn request(&self, number: String, title: String) -> Request {
        let library = self.library();
        let quotes = |quoted: &[(String, Place)]| quoted.iter().any(|(_, p)| self.papers.papers[p.paper].section(p.from).starts_with(&number));
        let marked = |note: &[String]| note.join(" ").contains(&number);
        let mut definitions: BTreeSet<usize> =
            self.entries.iter().copied().filter(|d| marked(&library.decls[*d].note) || self.quoted.get(d).is_some_and(|q| quotes(q))).collect();
        let heads = |file: usize| crate::contents::comments(&library.files[file]).first().map_or(String::new(), |c| c.1.clone());
        let calls = self.calls.iter().filter(|c| {
            let f = &library.functions[c.function];
            let note = f.note.join(" ");
            let own = c.name.contains("::") && !c.name.starts_with("Desk::") && heads(f.file).contains(&number);
            own || note.contains(&number) || quotes(&self.found(&note)) || Names::targets(&c.links).any(|t| definitions.contains(&t))
        });
        let rows = self.rows.iter().filter(|r| r.section.contains(&number) || r.sentence.contains(&number));
        let mut tests: Vec<String> = Vec::new();
        let mut calls: BTreeSet<String> = calls.map(|c| c.name.clone()).collect();
        for row in rows {
            calls.extend(row.calls.iter().filter(|c| self.call(c).is_some()).cloned());
            definitions.extend(row.definitions.iter().filter(|d| self.entries.contains(d)));
            for test in row.test.split("; ").filter(|t| !t.is_empty() && *t != "the same") {
                if !tests.iter().any(|t| t == test) {
                    tests.push(test.to_string());
                }
            }
        }
        Request { calls, number, title, definitions, tests }
    }
}
