//! The parts of the documents that are made from the sources: between `<!-- book: NAME -->` and `<!-- book: end -->`.

use crate::contents::{comments, Book};
use crate::source::File;
use crate::ways::Ways;
use std::fmt::Write;

/// Calls in a row of a document at most.
const FEW: usize = 8;
/// A first sentence below this many characters takes the second along.
const SHORT: usize = 60;

/// A document with its parts made anew; a part that nobody makes stays as it is.
pub fn rewritten(document: &str, make: impl Fn(&str) -> Option<String>) -> String {
    let mut made = String::new();
    let mut rest = document;
    while let Some(at) = rest.find("<!-- book: ") {
        let head = at + rest[at..].find("-->").map_or(0, |k| k + 3);
        let name = rest[at + "<!-- book: ".len()..head.saturating_sub(3)].trim();
        let Some(end) = rest[head..].find("<!-- book: end -->").map(|k| head + k) else {
            break;
        };
        made += &rest[..head];
        match make(name) {
            Some(part) => {
                let _ = write!(made, "\n{}\n", part.trim_end());
            }
            None => made += &rest[head..end],
        }
        made += "<!-- book: end -->";
        rest = &rest[end + "<!-- book: end -->".len()..];
    }
    made + rest
}

/// The first sentence of a comment, with the second where the first is short; that there is no code is told elsewhere.
pub fn first_sentence(comment: &str) -> String {
    let mut told = String::new();
    for sentence in comment.split_inclusive(". ").take(2) {
        if told.len() >= SHORT || sentence.trim_end().eq_ignore_ascii_case("no code.") {
            break;
        }
        told += sentence;
    }
    let told = told.trim().trim_end_matches('.');
    let told = told.strip_suffix("; no code").or(told.strip_suffix(": no code")).unwrap_or(told);
    told.replace('|', "\\|")
}

/// Whether a file of code has anything but comments and attributes of the whole file, as `#![tactic(auto)]`.
fn has_code(file: &File) -> bool {
    let mut at = 0;
    while at < file.words.len() {
        if file.word(at) != "#" || file.words.len() == at + 1 || file.word(at + 1) != "!" {
            return true;
        }
        at = (at..file.words.len()).find(|&k| file.word(k) == "]").map_or(file.words.len(), |k| k + 1);
    }
    false
}

impl Book<'_> {
    /// A crate's first comment, and whether it has code.
    fn crate_head(&self, name: &str) -> (String, bool) {
        let library = self.library();
        let files: Vec<usize> = (0..library.files.len()).filter(|&f| library.crate_of(f) == Some(name)).collect();
        let code = files.iter().filter(|&&f| library.files[f].path.starts_with("code:"));
        let mut code: Vec<usize> = code.copied().collect();
        let first = |f: &usize| library.files[*f].place.file_stem().is_some_and(|s| s == "lib" || s == "main");
        code.sort_by_key(|f| !first(f));
        let told = code.iter().find_map(|&f| comments(&library.files[f]).first().map(|c| c.1.clone()));
        let has_code = code.iter().any(|&f| has_code(&library.files[f]));
        (told.unwrap_or_default(), has_code)
    }

    /// The files of a crate's definitions and laws.
    fn crate_files(&self, name: &str) -> String {
        let mut told: Vec<&str> = Vec::new();
        for part in ["specs", "proofs"] {
            let head = format!("Rattle.{name}.{part}.");
            told.extend(self.library().files.iter().filter_map(|f| f.path.strip_prefix(&head)));
        }
        told.sort();
        told.dedup();
        told.join(", ")
    }

    /// One row a crate, from the first comment of its code; without code its files are what it has.
    fn crates_part(&self, with_code: bool) -> Option<String> {
        let mut made = String::from(if with_code { "| crate | holds |\n|---|---|\n" } else { "| crate | holds | files |\n|---|---|---|\n" });
        for name in self.library().crates().ok()? {
            let (comment, has_code) = self.crate_head(&name);
            let holds = first_sentence(&comment).replace("specs/", &format!("{name}/"));
            match (has_code == with_code, with_code) {
                (true, true) => _ = writeln!(made, "| {name} | {holds} |"),
                (true, false) => _ = writeln!(made, "| {name} | {holds} | {} |", self.crate_files(&name)),
                _ => {}
            }
        }
        Some(made)
    }

    /// The papers' sentences with their definitions and calls.
    fn sentences_part(&self) -> String {
        let mut made = String::new();
        let mut last = String::new();
        for sentence in self.sentences() {
            let title = self.papers.told(&sentence.place);
            if title != last {
                let _ = write!(made, "\n### {}\n\n| sentence | definition | contract |\n|---|---|---|\n", capital(&title));
                last = title;
            }
            let definitions: Vec<String> = sentence.definitions.iter().map(|&d| self.library().full_name(d)).collect();
            let calls = self.calls_told(&sentence.calls);
            let more = calls.len().saturating_sub(FEW);
            let shown = calls.into_iter().take(FEW).collect::<Vec<_>>().join(", ");
            let shown = if more > 0 { format!("{shown} and {more} more") } else { shown };
            let _ = writeln!(made, "| {} | {} | {shown} |", sentence.words.replace('|', "\\|"), definitions.join(", "));
        }
        made
    }

    /// What a reviewer will try, and what refuses it.
    fn mistakes_part(&self) -> String {
        let mut made = String::from("| a mistake | refused by |\n|---|---|\n");
        for block in &self.lists.mistakes {
            let _ = writeln!(made, "| {} | {} |", block.get("words"), block.get("edits"));
        }
        made
    }

    /// The forms that document 01 names, with their places.
    fn forms_part(&self) -> String {
        let mut made = String::from("| sentence | form | places |\n|---|---|---|\n");
        for block in &self.lists.forms {
            let note = match block.get("note") {
                "" => String::new(),
                note => format!("; {note}"),
            };
            let _ = writeln!(made, "| \"{}\" | {} | {}{note} |", block.get("words"), block.get("form"), block.get("places"));
        }
        made
    }

    /// One row a refusal.
    fn refusals_part(&self) -> String {
        let mut made = String::from("| number | when | group | definition | met after | answered by |\n|---|---|---|---|---|---|\n");
        for refusal in self.refusals() {
            let by: Vec<String> = refusal.by.iter().map(|&d| self.library().full_name(d)).collect();
            let _ = writeln!(
                made,
                "| {} | {} | {} | {} | {} | {} |",
                refusal.number,
                refusal.words,
                refusal.group,
                by.join(", "),
                refusal.after,
                refusal.calls.join(", ")
            );
        }
        made
    }

    /// A part by its name.
    pub fn part_of_document(&self, name: &str) -> Option<String> {
        match name {
            "believed" => Some(self.believed_part()),
            "types" => Some(self.types_part()),
            "forms" => Some(self.forms_part()),
            "refusals" => Some(self.refusals_part()),
            "crates without code" => self.crates_part(false),
            "crates with code" => self.crates_part(true),
            "sentences" => Some(self.sentences_part()),
            "mistakes" => Some(self.mistakes_part()),
            "ways" => Some(Ways::of(self).page()),
            _ => None,
        }
    }

    /// The documents with parts of the book, as they are and as they should be.
    pub fn documents(&self) -> std::io::Result<Vec<(std::path::PathBuf, String, String)>> {
        let mut found = Vec::new();
        for name in ["docs/ARCHITECTURE.md", "docs/CONTRACTS.md", "docs/WAYS.md"] {
            let path = self.library().root.join(name);
            let is = std::fs::read_to_string(&path)?;
            let should = rewritten(&is, |part| self.part_of_document(part));
            found.push((path, is, should));
        }
        Ok(found)
    }

    /// The documents whose parts are not what the sources say.
    pub fn stale(&self) -> std::io::Result<Vec<String>> {
        let all = self.documents()?.into_iter();
        Ok(all.filter(|d| d.1 != d.2).map(|d| format!("{} is stale: cargo run -p book -- documents makes it anew", d.0.display())).collect())
    }
}

/// A text that begins with a capital letter.
pub fn capital(text: &str) -> String {
    let mut letters = text.chars();
    match letters.next() {
        Some(first) => first.to_uppercase().chain(letters).collect(),
        None => String::new(),
    }
}

#[cfg(test)]
mod tests {
    use super::*;

    #[test]
    fn parts_are_made_anew_and_the_rest_stays() {
        let told = "a\n<!-- book: x -->\nold\n<!-- book: end -->\nb\n<!-- book: y -->\nkept\n<!-- book: end -->\n";
        let made = rewritten(told, |name| (name == "x").then(|| "new\n".to_string()));
        assert_eq!(made, "a\n<!-- book: x -->\nnew\n<!-- book: end -->\nb\n<!-- book: y -->\nkept\n<!-- book: end -->\n");
        assert_eq!(rewritten(&made, |name| (name == "x").then(|| "new\n".to_string())), made);
    }

    #[test]
    fn a_crate_without_code_has_attributes_at_most() {
        let read = |text: &str| crate::rattle::read("t", std::path::PathBuf::new(), text.to_string(), 0, &mut Vec::new()).0;
        assert!(!has_code(&read("// only this\n")));
        assert!(!has_code(&read("// only this\n#![tactic(auto)]\n#![tactic(auto)]\n")));
        assert!(has_code(&read("#![tactic(auto)]\n\npub const A: u8 = 1;\n")));
        assert!(has_code(&read("#[derive(Drop)]\npub struct A;\n")));
    }

    #[test]
    fn the_first_sentence_of_a_crate() {
        assert_eq!(first_sentence("The laws of an instance. No code."), "The laws of an instance");
        assert_eq!(first_sentence("Short. And more of it. And on."), "Short. And more of it");
        let long = "A sentence that is long enough to stand in a table by itself, alone. More.";
        assert_eq!(first_sentence(long), long[..long.len() - 7].to_string());
    }
}
