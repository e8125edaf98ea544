//! The whole page: one file with its own style, without scripts and without anything from elsewhere.

use crate::contents::{Book, Chapter};
use crate::html::{anchor, escaped};
use std::collections::BTreeMap;
use std::fmt::Write;

const STYLE: &str = include_str!("style.css");

/// The chapters behind the first page: place, title, what it says of itself.
const CHAPTERS: [(&str, &str, &str); 12] = [
    ("demands", "The three demands", "In the users' words. Under each: what states it, and what must be believed for it. A promise says what its words say, and the words are definitions; whoever has read those that are counted here knows what is promised. Besides, the checker is to be believed, with the kit's logic of the code and its compiler, and the words that are built into it (<a href=\"#words\">Words of the checker</a>); for the program also that the system's reading and writing do what they say."),
    ("requests", "By request", "The requests of document 02 that have landed (docs/LANDINGS.md tells what each moved)."),
    ("refusals", "By refusal", "Every number that a call answers: when, in which group, by which definition, after which others where several could be met. For C the calls crew_.. that stand for these answer the same."),
    ("forms", "By form", "The forms that document 01 names, and where they stand."),
    ("mistakes", "By mistake", "What document 01 wants shut out, and what a reviewer will try."),
    ("sentences", "By sentence", "The papers' sentences in their order, each with the definitions that quote it and the public calls whose contract comes to one of these."),
    ("calls", "The calls", "Every public call with its contract. Each name is a link."),
    ("promises", "The words of the promises", "Definitions between a contract and the model."),
    ("model", "The model, to be believed", "Documents 01 and 02 as definitions that run."),
    ("code", "Types of the code", "Structs and enums, which definitions see as records and data."),
    ("kit", "The kit's library", "What of it the definitions name; it leads no further here."),
    ("words", "Words of the checker", "What has no text of its own: it is built in."),
];

/// Two chapters that a reader looks things up in.
const BEHIND: [(&str, &str, &str); 2] = [
    ("laws", "Laws", "Statements that are proved, about the definitions of this book and nothing else. Their proofs are in the files that are named."),
    ("edits", "Edits that must be refused", "Each changes a definition or a function into a wrong one, and the gate asks that the prover refuses it."),
];

impl Book<'_> {
    /// The page.
    pub fn page(&self) -> String {
        let mut made = String::from(
            "<!doctype html>\n<html lang=\"en\"><head><meta charset=\"utf-8\"><meta name=\"viewport\" content=\"width=device-width, initial-scale=1\">",
        );
        let _ = write!(made, "<title>The contracts of the crew vote</title><style>\n{STYLE}</style></head>\n<body>{}<main>", self.navigation());
        made += "<h1>The contracts of the crew vote</h1>\n<p>Every public call with its contract. Each name in a contract leads to its definition, and on from there, down to the model, which is document 01 and document 02 as definitions that run, and to the kit's library. Beside a definition stands the paper's sentence that it states; under it who uses it, its laws, the tests, and the edits that the prover must refuse.</p>\n";
        made += &self.numbers_text();
        for (place, title, says) in CHAPTERS.iter().chain(&BEHIND) {
            let _ = write!(made, "\n<h2 id=\"{place}\">{}</h2>\n<p>{says}</p>\n{}", escaped(title), self.part(place));
        }
        made += "</main></body></html>\n";
        made
    }

    fn part(&self, place: &str) -> String {
        match place {
            "demands" => self.demands_text(),
            "requests" => self.requests_text(),
            "refusals" => self.refusals_text(),
            "forms" => self.forms_text(),
            "mistakes" => self.mistakes_text(),
            "sentences" => self.sentences_text(),
            "calls" => self.calls_text(),
            "promises" => self.chapter_text(Chapter::Promises),
            "model" => self.chapter_text(Chapter::Model),
            "code" => self.chapter_text(Chapter::Code),
            "kit" => self.chapter_text(Chapter::Kit),
            "words" => self.words_text(),
            "laws" => self.laws_text(),
            _ => self.edits_text(),
        }
    }

    /// The calls by their crates, the desk first.
    fn calls_by_crate(&self) -> BTreeMap<(bool, String), Vec<&crate::reach::Call>> {
        let library = self.library();
        let mut found: BTreeMap<(bool, String), Vec<&crate::reach::Call>> = BTreeMap::new();
        for call in &self.calls {
            let owner = library.crate_of(library.functions[call.function].file).unwrap_or("");
            found.entry((owner != "desk", owner.to_string())).or_default().push(call);
        }
        found
    }

    fn calls_text(&self) -> String {
        let mut made = String::new();
        for ((_, owner), calls) in self.calls_by_crate() {
            let _ = write!(made, "<h3>crate {}</h3>", escaped(&owner));
            made.extend(calls.into_iter().map(|c| self.call_entry(c)));
        }
        made
    }

    fn navigation(&self) -> String {
        let mut made = String::from("<nav><b>The contracts of the crew vote</b>");
        for (place, title, _) in CHAPTERS.iter().chain(&BEHIND) {
            let _ = write!(made, "<a href=\"#{place}\">{}</a>", escaped(title));
        }
        for ((_, owner), calls) in self.calls_by_crate() {
            let _ = write!(made, "<b>{}</b>", escaped(&owner));
            for call in calls {
                let short = call.name.rsplit("::").next().unwrap_or("");
                let _ = write!(made, "<a href=\"#{}\">{}</a>", anchor(&format!("call:{}", call.name)), escaped(short));
            }
        }
        made + "</nav>"
    }
}
