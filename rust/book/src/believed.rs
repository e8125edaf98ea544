//! What a reader of the contracts must believe besides the model: the files of definitions outside it that a public contract comes to, and the types of the
//! code that it speaks of, each with what it is for.

use crate::contents::{comments, Book, Chapter};
use crate::documents::first_sentence;
use std::collections::{BTreeMap, BTreeSet};
use std::fmt::Write;

impl Book<'_> {
    /// The definitions of a chapter that the contract of some public call comes to, with those calls, by the files that they stand in.
    fn come_to(&self, chapter: Chapter) -> BTreeMap<String, BTreeMap<usize, BTreeSet<&str>>> {
        let library = self.library();
        let mut found: BTreeMap<String, BTreeMap<usize, BTreeSet<&str>>> = BTreeMap::new();
        for call in &self.calls {
            for &decl in call.comes_to.iter().filter(|&&d| self.chapter(d) == chapter && !self.names.is_law(d)) {
                let full = library.full_name(decl);
                let file = full.rsplit_once(['.', ':']).map_or(full.as_str(), |(file, _)| file.trim_end_matches(':'));
                found.entry(file.to_string()).or_default().entry(decl).or_default().insert(&call.name);
            }
        }
        found
    }

    /// What a file says that it is for: its first comment.
    fn file_head(&self, decl: usize) -> String {
        let library = self.library();
        let file = &library.files[library.decls[decl].file];
        comments(file).first().map_or(String::new(), |c| first_sentence(&c.1))
    }

    /// One row a file of definitions outside the model: what it is for, its definitions that contracts come to, and how many calls' do.
    pub fn believed_part(&self) -> String {
        let mut made = String::from("| file | what it is for | definitions | calls |\n|---|---|---|---|\n");
        for (file, decls) in self.come_to(Chapter::Promises) {
            let library = self.library();
            let names: Vec<&str> = decls.keys().map(|&d| library.decls[d].name.as_str()).collect();
            let calls: BTreeSet<&str> = decls.values().flatten().copied().collect();
            let first = decls.keys().next().map_or(String::new(), |&d| self.file_head(d));
            let _ = writeln!(made, "| {file} | {first} | {} | {} |", names.join(", "), calls.len());
        }
        made
    }

    /// One row a type of the code: what it is, or else its fields, and how many calls' contracts speak of it.
    pub fn types_part(&self) -> String {
        let mut made = String::from("| type | what it is | calls |\n|---|---|---|\n");
        for decls in self.come_to(Chapter::Code).into_values() {
            for (decl, calls) in decls {
                let library = self.library();
                let told = match first_sentence(&library.decls[decl].note.join(" ")) {
                    note if !note.is_empty() => note,
                    _ => library.decls[decl].members.iter().map(|m| m.name.as_str()).collect::<Vec<_>>().join(", "),
                };
                let _ = writeln!(made, "| {} | {told} | {} |", library.full_name(decl), calls.len());
            }
        }
        made
    }
}
