//! The first pages: the demands with what must be believed, and the tables by request, refusal, form, mistake and sentence.

use crate::contents::{Book, Chapter};
use crate::html::{anchor, escaped, marked, some, table};
use crate::lists::Block;
use crate::reach::Names;
use std::collections::BTreeSet;
use std::fmt::Write;

/// Calls in a cell at most.
const FEW: usize = 16;

/// A chapter in words.
fn chapter_name(chapter: Chapter) -> &'static str {
    match chapter {
        Chapter::Promises => "words of the promises",
        Chapter::Model => "the model",
        Chapter::Code => "types of the code",
        Chapter::Kit => "the kit's library",
    }
}

impl Book<'_> {
    /// The demands, each with what states it and what must be believed for it.
    pub fn demands_text(&self) -> String {
        let mut made = String::new();
        for block in &self.lists.demands {
            let number = block.get("number");
            let _ =
                write!(made, "<article id=\"demand-{number}\"><h3>Demand {number}</h3><blockquote class=demand>{}</blockquote>", escaped(block.get("words")));
            let laws: Vec<String> = block.names("laws").iter().filter_map(|l| Some(self.link(self.library().named(l)?, l))).collect();
            let calls = match block.get("calls") {
                "every" => {
                    vec!["<a href=\"#calls\">the contract of every public call</a>".to_string()]
                }
                _ => block.names("calls").iter().map(|c| format!("the contract of {}", self.link_call(c))).collect(),
            };
            let _ = write!(made, "<p><b>Stated by</b> {}.</p>", calls.into_iter().chain(laws).collect::<Vec<_>>().join(", "));
            let _ = writeln!(made, "<p>{}</p>{}</article>", marked(block.get("beside")), self.believed(block));
        }
        made
    }

    /// What must be believed: the definitions that a demand's statements come to, counted, and listed unless they are all of the book.
    fn believed(&self, block: &Block) -> String {
        let library = self.library();
        let every = block.get("calls") == "every";
        let calls: Vec<_> = self.calls.iter().filter(|c| every || block.names("calls").contains(&c.name.as_str())).collect();
        let laws: Vec<usize> = block.names("laws").into_iter().filter_map(|l| library.named(l)).collect();
        let mut all: BTreeSet<usize> = calls.iter().flat_map(|c| c.comes_to.iter().copied()).collect();
        for &law in &laws {
            all.extend(self.names.comes_to(&self.names.links(law)));
        }
        let led_to = self.names.closure(calls.iter().flat_map(|c| Names::targets(&c.links)).chain(laws));
        let led_to = led_to.iter().filter(|&&d| !self.names.is_law(d)).fold((0, 0), |(n, l), &d| (n + 1, l + self.lines(d)));
        let mut rows = Vec::new();
        let mut sums = (0, 0);
        for chapter in [Chapter::Model, Chapter::Promises, Chapter::Code, Chapter::Kit] {
            let here = all.iter().filter(|&&d| self.chapter(d) == chapter && !self.names.is_law(d));
            let (n, lines) = here.fold((0, 0), |(n, l), &d| (n + 1, l + self.lines(d)));
            sums = (sums.0 + n, sums.1 + lines);
            rows.push(vec![chapter_name(chapter).to_string(), n.to_string(), lines.to_string()]);
        }
        rows.push(vec!["<b>together</b>".to_string(), format!("<b>{}</b>", sums.0), format!("<b>{}</b>", sums.1)]);
        let mut made = format!("<h4>To be believed</h4>{}", table("sizes", &["of", "definitions", "lines"], &rows));
        let _ = write!(
            made,
            "<p>Counted is what the statements can come to, read off the text: of a definition by cases the clauses for these calls, of a record that is built \
             the fields that are taken. All that their names lead to, other cases included, is {} definitions with {} lines.</p>",
            led_to.0, led_to.1
        );
        if every {
            made += "<p class=list>These are the chapters that follow.</p>";
            return made;
        }
        for (file, decls) in self.by_file(all.into_iter().filter(|&d| !self.names.is_law(d))) {
            let links: Vec<String> = decls.iter().map(|&d| self.link_named(d)).collect();
            let _ = write!(made, "<p class=list><b>{}</b> {}</p>", escaped(&library.shown_place(file)), links.join(" "));
        }
        made
    }

    /// The requests that have landed.
    pub fn requests_text(&self) -> String {
        let rows: Vec<Vec<String>> = self
            .requests()
            .into_iter()
            .map(|r| {
                let definitions: Vec<String> = r.definitions.iter().map(|&d| self.link_named(d)).collect();
                let calls: Vec<String> = r.calls.iter().map(|c| self.link_call(c)).collect();
                vec![
                    format!("<b id=\"{}\">{}</b> {}", anchor(&r.number), escaped(&r.number), escaped(&r.title)),
                    definitions.join(", "),
                    calls.join(", "),
                    r.tests.iter().map(|t| marked(t).replace('/', "/<wbr>")).collect::<Vec<_>>().join("; "),
                ]
            })
            .collect();
        table("requests", &["request", "definitions that quote or name it", "calls that quote, name or cite these", "cases and tests"], &rows)
    }

    /// The named forms of document 01 with their places in the code.
    pub fn forms_text(&self) -> String {
        let rows: Vec<Vec<String>> = self
            .lists
            .forms
            .iter()
            .map(|b| {
                let places = b.names("places").into_iter().filter_map(|p| {
                    let (place, decl) = self.code_place(p)?;
                    let name = match decl {
                        Some(d) => self.link(d, p),
                        None => self.link_call(p),
                    };
                    Some(format!("{name} <small>{}</small>", escaped(&place)))
                });
                let places: Vec<String> = places.collect();
                let note = match b.get("note") {
                    "" => String::new(),
                    note => format!("<br>{}", marked(note)),
                };
                vec![format!("“{}”", escaped(b.get("words"))), escaped(b.get("form")), format!("{}{note}", places.join("<br>"))]
            })
            .collect();
        table("forms", &["sentence", "form", "places"], &rows)
    }

    /// The mistakes to be shut out, with the edits that try them.
    pub fn mistakes_text(&self) -> String {
        let rows: Vec<Vec<String>> = self
            .lists
            .mistakes
            .iter()
            .map(|b| {
                let names = b.names("edits").into_iter();
                let edits = names.filter_map(|name| self.edits.iter().position(|e| e.name == name));
                let edits: Vec<String> = edits.map(|n| format!("{}: {}", self.link_edit(n), escaped(&self.edits[n].wrong))).collect();
                vec![escaped(b.get("words")), edits.join("<br>")]
            })
            .collect();
        table("mistakes", &["a mistake", "the edit that the prover must refuse, and the wrong program that it tries"], &rows)
    }

    /// The papers' sentences, each with the definitions and the calls that state it.
    pub fn sentences_text(&self) -> String {
        let mut made = String::new();
        let mut last = String::new();
        let mut rows: Vec<Vec<String>> = Vec::new();
        let flush = |made: &mut String, title: &str, rows: &mut Vec<Vec<String>>| {
            if !rows.is_empty() {
                let _ = write!(made, "<h3>{}</h3>{}", escaped(title), table("sentences", &["sentence", "definitions", "contracts"], rows));
                rows.clear();
            }
        };
        for sentence in self.sentences() {
            let title = self.papers.told(&sentence.place);
            if title != last {
                flush(&mut made, &last, &mut rows);
                last = title;
            }
            let definitions: Vec<String> = sentence.definitions.iter().map(|&d| self.link_named(d)).collect();
            let calls: Vec<String> = self.calls_told(&sentence.calls).iter().map(|c| self.link_call(c)).collect();
            rows.push(vec![escaped(&sentence.words), definitions.join(", "), some(&calls, FEW)]);
        }
        flush(&mut made, &last, &mut rows);
        made
    }

    /// How many sentences of each paper are quoted.
    pub fn coverage(&self) -> Vec<(String, usize, usize)> {
        let mut quoted: BTreeSet<(usize, usize)> = BTreeSet::new();
        for sentence in self.sentences() {
            quoted.extend((sentence.place.from..=sentence.place.to).map(|s| (sentence.place.paper, s)));
        }
        let papers = self.papers.papers.iter().enumerate();
        papers.map(|(n, p)| (p.name.clone(), quoted.iter().filter(|q| q.0 == n).count(), p.sentences)).collect()
    }

    /// The numbers that the first page tells.
    pub fn numbers_text(&self) -> String {
        let c = self.counts;
        let whole = c.linked + c.bound + c.built + c.untold + c.lost;
        let lines: usize = self.entries.iter().map(|&d| self.lines(d)).sum();
        let told: Vec<String> = self
            .coverage()
            .iter()
            .map(|(name, n, all)| format!("{n} of {all} of {}", if name == "demands" { "the demands".to_string() } else { format!("document {name}") }))
            .collect();
        format!(
            "<p>{} public calls, {} definitions that their contracts lead to ({lines} lines), {} laws that speak of these definitions and of nothing else, {} edits that must be refused.</p>\
             <p>{whole} names in the contracts, definitions and statements shown here: {} lead to a definition, {} to a word of the checker, {} are bound where they stand. \
             <b>{} cannot be resolved.</b></p><p>Sentences of the papers that a definition or a call here quotes: {}.</p>",
            self.calls.len(),
            self.entries.len(),
            self.laws.len(),
            self.edits.len(),
            c.linked,
            c.built,
            c.bound,
            c.untold + c.lost,
            told.join(", ")
        )
    }
}
