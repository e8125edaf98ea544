//! The entries of the book: calls, definitions, laws, edits, words of the checker.

use crate::contents::{Book, Chapter, Quotation};
use crate::edits::Changed;
use crate::html::{anchor, escaped, marked, some, table};
use crate::reach::Call;
use crate::source::Sort;
use crate::term::Span;
use std::collections::BTreeMap;
use std::fmt::Write;

/// How many names a line beside a definition has at most.
const MANY: usize = 24;
/// How many edits of the code stand beside a call, the nearest first.
const NEAR: usize = 10;

/// What a declaration is, for a reader.
fn sort_name(book: &Book, decl: usize) -> &'static str {
    let d = &book.library().decls[decl];
    match d.sort {
        Sort::Data => "data",
        Sort::Record => "record",
        Sort::Struct => "struct of the code",
        Sort::Enum => "enum of the code",
        Sort::Call => "call",
        Sort::Definition if book.names.is_law(decl) => "law, its proof is shut",
        Sort::Definition => "definition",
    }
}

/// A comment: left out where it is one quotation and nothing else, which then stands beside.
fn note(lines: &[String], quoted: &[Quotation]) -> String {
    let whole = lines.join(" ");
    let alone = quoted.len() == 1 && whole.trim() == format!("\"{}\"", quoted[0].0);
    if whole.is_empty() || alone {
        return String::new();
    }
    format!("<p class=note>{}</p>", marked(&whole))
}

impl Book<'_> {
    /// The quotations beside an entry.
    fn beside(&self, quoted: &[Quotation]) -> String {
        let mut made = String::new();
        for (words, place) in quoted {
            let _ = write!(made, "<blockquote>{}<cite>{}</cite></blockquote>", escaped(words), escaped(&self.papers.told(place)));
        }
        made
    }

    fn entry(&self, id: &str, title: &str, small: &str, main: &str, aside: &str) -> String {
        let aside = if aside.is_empty() { String::new() } else { format!("<aside>{aside}</aside>") };
        format!("<section id=\"{}\"><h4>{} <small>{}</small></h4><div class=main>{main}</div>{aside}</section>\n", anchor(id), escaped(title), escaped(small))
    }

    /// A line of an entry: what it tells, and the links.
    fn line(&self, what: &str, links: &str) -> String {
        if links.is_empty() {
            return String::new();
        }
        format!("<p class=more><b>{what}</b> {links}</p>")
    }

    /// A definition: its text, who uses it, its laws, edits and tests, and the paper's sentence beside it.
    pub fn definition(&self, decl: usize) -> String {
        let library = self.library();
        let d = &library.decls[decl];
        let quoted = self.quoted.get(&decl).map_or(&[][..], Vec::as_slice);
        let mut main = note(&d.note, quoted);
        let _ = write!(main, "<pre>{}</pre>", self.text(decl));
        main += &self.line("used by", &self.users(decl));
        if !self.names.is_law(decl) {
            main += &self.line("laws", &self.laws_about(decl));
        }
        main += &self.tests(|row| row.definitions.contains(&decl));
        main += &self.edits_at(decl);
        let place = format!("{} · {}:{}", sort_name(self, decl), library.shown_place(d.file), d.line);
        self.entry(&library.full_name(decl), &d.name, &place, &main, &self.beside(quoted))
    }

    /// The text of a declaration: a law's statement alone.
    fn text(&self, decl: usize) -> String {
        let library = self.library();
        let d = &library.decls[decl];
        let file = &library.files[d.file];
        let links = self.names.links(decl);
        let mut made = String::new();
        for &s in &d.sections {
            let over = self.code(file, file.sections[s], &links, d.column, None);
            made += &over.replacen("<span class=l>", "<span class=l><i>for every</i> ", 1);
        }
        let to = if self.names.is_law(decl) { d.of.to } else { d.words.to };
        made + &self.code(file, Span { from: d.words.from, to }, &links, d.column, Some(decl))
    }

    fn users(&self, decl: usize) -> String {
        let calls = self.calls.iter().filter(|c| crate::reach::Names::targets(&c.links).any(|t| t == decl));
        let mut users: Vec<String> = calls.map(|c| self.link_call(&c.name)).collect();
        if let Some(decls) = self.used_by.get(&decl) {
            users.extend(decls.iter().map(|&d| self.link_named(d)));
        }
        some(&users, MANY)
    }

    /// The laws about a definition that the book has, those about little else first; and where others are.
    fn laws_about(&self, decl: usize) -> String {
        let mut laws = self.laws_of.get(&decl).cloned().unwrap_or_default();
        laws.sort_by_key(|&l| (self.names.links(l).words.len(), l));
        let shown: Vec<String> = laws.iter().map(|&l| self.link_named(l)).collect();
        let mut made = some(&shown, MANY / 2);
        if let Some(others) = self.other_laws.get(&decl) {
            let told: Vec<String> = others.iter().map(|(c, n)| format!("{c} ({n})")).collect();
            let joint = if made.is_empty() { "" } else { "; " };
            let _ = write!(made, "{joint}in words of their own: {}", escaped(&told.join(", ")));
        }
        made
    }

    /// Proofs and tests that docs/ARCHITECTURE.md names in the rows that are picked.
    fn tests(&self, pick: impl Fn(&crate::rows::Row) -> bool) -> String {
        let rows: Vec<_> = self.rows.iter().filter(|r| pick(r)).collect();
        let mut cells: [Vec<&str>; 2] = Default::default();
        for row in rows {
            for (cell, found) in [(&row.proof, 0), (&row.test, 1)] {
                if !cell.is_empty() && cell != "the same" && !cells[found].contains(&cell.as_str()) {
                    cells[found].push(cell);
                }
            }
        }
        let told = |cells: &[&str]| cells.iter().map(|c| self.linked(c)).collect::<Vec<_>>().join("; ");
        self.line("proof", &told(&cells[0])) + &self.line("tests", &told(&cells[1]))
    }

    /// A cell of a document, its `crate/File.name` as links where the book has them.
    fn linked(&self, cell: &str) -> String {
        let words = cell.split_inclusive([' ', ',', ';', ':']);
        let links = words.map(|word| {
            let name = word.trim_end_matches([' ', ',', ';', ':', '.']);
            let decl = if name.contains('/') { self.library().named(name) } else { None };
            match decl.filter(|d| self.entries.contains(d) || self.laws.contains(d)) {
                Some(d) => self.link(d, name) + &escaped(&word[name.len()..]),
                None => marked(word),
            }
        });
        links.collect()
    }

    fn edits_at(&self, decl: usize) -> String {
        let Some(edits) = self.edits_of.get(&decl) else {
            return String::new();
        };
        let shown: Vec<String> = edits.iter().map(|&n| format!("{}: {}", self.link_edit(n), escaped(&self.edits[n].wrong))).collect();
        self.line("must be refused", &shown.join("; "))
    }

    /// A public call: its contract, its tests and the edits of its code.
    pub fn call_entry(&self, call: &Call) -> String {
        let library = self.library();
        let f = &library.functions[call.function];
        let file = &library.files[f.file];
        let quoted = self.found(&f.note.join(" "));
        let column = file.words[f.header.from].column.saturating_sub(if f.exported { 15 } else { 4 });
        let mut main = note(&f.note, &quoted);
        let _ = write!(main, "<pre>{}</pre>", self.code(file, f.header, &call.links, column, None));
        let own = call.comes_to.iter().filter(|&&d| self.is_model(d)).count();
        main += &self.line("comes to", &format!("{} definitions, {own} of them of the model", call.comes_to.len()));
        main += &self.tests(|row| row.calls.contains(&call.name));
        let edits = self.edits_below(call);
        let near: Vec<String> = edits.iter().take(NEAR).map(|e| format!("{}: {}", self.link_edit(e.1), escaped(&self.edits[e.1].wrong))).collect();
        let far = edits.len() - near.len();
        let mut told = near.join("; ");
        if far > 0 {
            let joint = if told.is_empty() { "" } else { "; " };
            let _ = write!(told, "{joint}<a href=\"#edits\">{far} more</a> in the code below");
        }
        main += &self.line("must be refused", &told);
        let place = format!("{}:{}", library.shown_place(f.file), f.line);
        self.entry(&format!("call:{}", call.name), &call.name, &place, &main, &self.beside(&quoted))
    }

    /// The definitions of a chapter, file by file, each file under its first comment.
    pub fn chapter_text(&self, chapter: Chapter) -> String {
        let mut made = String::new();
        for (file, decls) in self.by_file(self.entries.iter().copied().filter(|&d| self.chapter(d) == chapter)) {
            let links: Vec<String> = decls.iter().map(|&d| self.link_named(d)).collect();
            let _ = write!(made, "<h3>{}</h3><p class=index>{}</p>", escaped(&self.library().shown_place(file)), links.join(" "));
            made.extend(decls.iter().map(|&d| self.definition(d)));
        }
        made
    }

    /// Declarations by their files, the files in the order of their places.
    pub fn by_file(&self, decls: impl Iterator<Item = usize>) -> Vec<(usize, Vec<usize>)> {
        let library = self.library();
        let mut files: BTreeMap<(String, usize), Vec<usize>> = BTreeMap::new();
        for d in decls {
            let file = library.decls[d].file;
            files.entry((library.shown_place(file), file)).or_default().push(d);
        }
        let sorted = files.into_iter().map(|((_, file), mut decls)| {
            decls.sort_by_key(|&d| library.decls[d].line);
            (file, decls)
        });
        sorted.collect()
    }

    /// The laws that speak of the book's definitions, by statement.
    pub fn laws_text(&self) -> String {
        let mut made = String::new();
        let laws = self.laws.iter().copied().filter(|l| !self.entries.contains(l));
        for (file, decls) in self.by_file(laws) {
            let _ = write!(made, "<h3>{}</h3>", escaped(&self.library().shown_place(file)));
            made.extend(decls.iter().map(|&d| self.definition(d)));
        }
        made
    }

    /// All edits: the wrong program, where it is tried, and what changes.
    pub fn edits_text(&self) -> String {
        let library = self.library();
        let mut made = String::new();
        for edit in &self.edits {
            let mut places = Vec::new();
            for changed in &edit.changed {
                places.push(match changed {
                    Changed::Decl(d) => self.link(*d, &library.full_name(*d)),
                    Changed::Function(f) => {
                        let f = &library.functions[*f];
                        self.link_call(&crate::reach::call_name(library, f))
                    }
                    Changed::Elsewhere => escaped(&edit.file),
                });
            }
            let mut lines = String::new();
            for (old, new) in &edit.changes {
                let _ = writeln!(lines, "<del>{}</del>\n<ins>{}</ins>", escaped(old.trim()), escaped(new.trim()));
            }
            let _ = writeln!(
                made,
                "<section id=\"{}\" class=edit><h4>{} <small>in {}</small></h4><div class=main><p class=note>{}</p><pre>{}</pre></div></section>",
                anchor(&format!("edit:{}", edit.name)),
                escaped(&edit.name),
                places.join(", "),
                marked(&edit.wrong),
                lines.trim_end()
            );
        }
        made
    }

    /// The words that are built into the checker.
    pub fn words_text(&self) -> String {
        let mut rows = Vec::new();
        for name in &self.words {
            let short = if name.contains("◌.◌") { name.as_str() } else { name.rsplit('.').next().unwrap_or(name) };
            let says = self.lists.words.iter().find(|b| b.get("word") == short).map_or("", |b| b.get("says"));
            let id = anchor(&format!("word:{name}"));
            rows.push(vec![format!("<code id=\"{id}\">{}</code>", escaped(short)), escaped(name), marked(says)]);
        }
        table("words", &["word", "whole name", "says"], &rows)
    }
}
