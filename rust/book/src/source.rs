//! A file of the checker's language taken apart by its layout: `use` and `mod` lines, sections, and declarations with their comments.

use crate::lex::{self, Kind, Word};
use crate::term::Span;
use std::path::PathBuf;

/// What a declaration is.
#[derive(Clone, Copy, PartialEq, Eq, Debug)]
pub enum Sort {
    Definition,
    Data,
    Record,
    /// a struct of the code, which definitions see as a record
    Struct,
    /// an enum of the code, which definitions see as data
    Enum,
    /// a public call of the code
    Call,
}

impl Sort {
    /// Whether it is a type of the code.
    pub fn is_code(self) -> bool {
        matches!(self, Sort::Struct | Sort::Enum)
    }
}

/// A field of a record or a constructor of data.
#[derive(Clone, Debug)]
pub struct Member {
    pub name: String,
    pub word: usize,
    pub of: Span,
}

/// A declaration.
#[derive(Clone, Debug)]
pub struct Decl {
    pub name: String,
    pub sort: Sort,
    pub file: usize,
    pub line: usize,
    /// the comment above it, a line each
    pub note: Vec<String>,
    /// the sections around it, by their numbers in the file
    pub sections: Vec<usize>,
    /// parameters left of the colon
    pub parameters: Span,
    /// the type behind the colon
    pub of: Span,
    pub members: Vec<Member>,
    pub clauses: Vec<Span>,
    /// its words, and the column that it begins in
    pub words: Span,
    pub column: usize,
    pub public: bool,
    /// `abbrev` or `unfoldable`: others can open it
    pub open: bool,
}

/// A `use` line's leaf: here it is called `here`, and it is `name` of the module `path`.
#[derive(Clone, Debug)]
pub struct Use {
    pub here: String,
    pub path: String,
    pub name: Option<String>,
    pub line: usize,
}

/// A file that is taken apart.
#[derive(Default)]
pub struct File {
    /// the module's whole path
    pub path: String,
    pub place: PathBuf,
    pub text: String,
    /// words without comments
    pub words: Vec<Word>,
    pub comments: Vec<Word>,
    pub uses: Vec<Use>,
    pub globs: Vec<String>,
    pub children: Vec<String>,
    pub decls: Vec<usize>,
    /// the parameters of each section
    pub sections: Vec<Span>,
    /// operators that lean to the left
    pub leftward: Vec<String>,
}

impl File {
    /// A word as it is written.
    pub fn word(&self, k: usize) -> &str {
        self.words[k].of(&self.text)
    }

    /// The place behind the types of the code in `<` and `>`.
    pub fn behind_types(&self, open: usize) -> usize {
        let mut depth = 0i32;
        for k in open..self.words.len() {
            match self.word(k) {
                "<" => depth += 1,
                ">" if self.word(k - 1) != "-" => depth -= 1,
                _ => {}
            }
            if depth == 0 {
                return k + 1;
            }
        }
        self.words.len()
    }

    /// The text of some words, with what stands between them.
    pub fn slice(&self, span: Span) -> &str {
        if span.from >= span.to {
            return "";
        }
        &self.text[self.words[span.from].start..self.words[span.to - 1].end]
    }
}

/// Reads a file: its declarations are appended to `all`, numbered `number`.
pub fn read(path: &str, place: PathBuf, text: String, number: usize, all: &mut Vec<Decl>) -> File {
    let (comments, words) = lex::words(&text).into_iter().partition(|w: &Word| w.kind == Kind::Comment);
    let mut file = File { path: path.to_string(), place, text, words, comments, ..File::default() };
    let whole = Span { from: 0, to: file.words.len() };
    let mut reader = Reader { number, all, sections: Vec::new(), spans: Vec::new(), decls: Vec::new() };
    reader.block(&mut file, whole);
    file.sections = reader.spans;
    file.decls = reader.decls;
    file
}

struct Reader<'a> {
    number: usize,
    all: &'a mut Vec<Decl>,
    /// the sections that are open
    sections: Vec<usize>,
    spans: Vec<Span>,
    decls: Vec<usize>,
}

/// Items of a block: runs of words that begin a line at the block's column.
pub fn items(file: &File, block: Span) -> Vec<Span> {
    let mut starts: Vec<usize> = Vec::new();
    if block.from >= block.to {
        return Vec::new();
    }
    let column = file.words[block.from].column;
    for k in block.from..block.to {
        let word = &file.words[k];
        let first = k == block.from || file.words[k - 1].line < word.line;
        if first && word.column <= column {
            starts.push(k);
        }
    }
    let ends: Vec<usize> = starts.iter().skip(1).copied().chain([block.to]).collect();
    starts.into_iter().zip(ends).map(|(from, to)| Span { from, to }).collect()
}

/// The place of a word outside brackets, if it is there.
fn find(file: &File, span: Span, word: &str) -> Option<usize> {
    let mut depth = 0i32;
    for k in span.from..span.to {
        match file.word(k) {
            "(" | "{" => depth += 1,
            ")" | "}" => depth -= 1,
            w if w == word && depth == 0 => return Some(k),
            _ => {}
        }
    }
    None
}

/// The place behind the levels in braces that may follow a name: they have no type.
fn behind_levels(file: &File, at: usize, end: usize) -> usize {
    if at >= end || file.word(at) != "{" {
        return at;
    }
    let close = (at..end).find(|&k| file.word(k) == "}").unwrap_or(end - 1);
    if (at..close).any(|k| file.word(k) == ":") {
        at
    } else {
        close + 1
    }
}

/// The comment lines directly above a line, in the column of what stands there; headings of dashes are none.
pub fn note_above(file: &File, line: usize, column: usize) -> Vec<String> {
    let mut lines = Vec::new();
    let mut above = line;
    for word in file.comments.iter().rev() {
        if word.line >= line {
            continue;
        }
        if word.line + 1 != above || word.column != column {
            break;
        }
        let told = word.of(&file.text).trim_start_matches("--").trim();
        if word.of(&file.text).starts_with("-- ----") {
            break;
        }
        lines.push(told.to_string());
        above = word.line;
    }
    lines.reverse();
    lines
}

impl Reader<'_> {
    fn block(&mut self, file: &mut File, block: Span) {
        let mut current: Option<usize> = None;
        for item in items(file, block) {
            let word = file.word(item.from).to_string();
            match word.as_str() {
                "infixl" => {
                    let operator = file.word(item.to - 1).to_string();
                    file.leftward.push(operator);
                }
                "infix" | "infixr" | "open" => {}
                "module" => {
                    self.section(file, item);
                    current = None;
                }
                "mutual" => self.block(file, Span { from: item.from + 1, to: item.to }),
                "unfolding" => self.extend(current, item, false),
                _ if self.header(file, item) => {}
                _ => match self.declaration(file, item) {
                    Some(decl) => {
                        self.all.push(decl);
                        self.decls.push(self.all.len() - 1);
                        current = Some(self.all.len() - 1);
                    }
                    None => self.extend(current, item, true),
                },
            }
        }
    }

    /// A clause or a line of what is declared above.
    fn extend(&mut self, current: Option<usize>, item: Span, clause: bool) {
        if let Some(decl) = current.map(|k| &mut self.all[k]) {
            decl.words.to = item.to;
            if clause {
                decl.clauses.push(item);
            }
        }
    }

    fn section(&mut self, file: &mut File, item: Span) {
        let Some(end) = find(file, item, "where") else {
            return;
        };
        self.sections.push(self.spans.len());
        self.spans.push(Span { from: behind_levels(file, item.from + 2, end), to: end });
        let inner = Span { from: end + 1, to: item.to };
        self.block(file, inner);
        self.sections.pop();
    }

    /// A `use` or `mod` line.
    fn header(&mut self, file: &mut File, item: Span) -> bool {
        let mut at = item.from;
        while at < item.to && matches!(file.word(at), "pub" | "unfoldable" | "ghost") {
            at += 1;
        }
        match file.word(at) {
            "mod" => {
                let child = file.word(at + 1).to_string();
                file.children.push(child);
                true
            }
            "use" => {
                let line = file.words[at].line;
                let span = Span { from: at + 1, to: item.to };
                let told = file.slice(span).to_string();
                use_line(file, &told, line);
                true
            }
            _ => false,
        }
    }

    fn declaration(&self, file: &File, item: Span) -> Option<Decl> {
        let mut at = item.from;
        let (mut public, mut open, mut rules, mut sort) = (false, false, false, Sort::Definition);
        while at < item.to {
            match file.word(at) {
                "pub" => public = true,
                "abbrev" | "unfoldable" => open = true,
                "axiom" | "pattern" => {}
                "ruleset" => rules = true,
                "data" => sort = Sort::Data,
                "record" => sort = Sort::Record,
                _ => break,
            }
            at += 1;
        }
        let colon = find(file, Span { from: at, to: item.to }, ":");
        let colon = match (sort, colon) {
            (Sort::Definition, Some(k)) if k == behind_levels(file, at + 1, item.to) => k,
            (Sort::Definition, _) if rules => at + 1,
            (Sort::Definition, _) => return None,
            (_, found) => found?,
        };
        let body = match sort {
            Sort::Definition => item.to,
            _ => find(file, item, "where").unwrap_or(item.to),
        };
        let (line, column) = (file.words[item.from].line, file.words[item.from].column);
        Some(Decl {
            name: file.word(at).to_string(),
            sort,
            file: self.number,
            line,
            note: note_above(file, line, column),
            sections: self.sections.clone(),
            parameters: Span { from: behind_levels(file, at + 1, colon), to: colon },
            of: Span { from: colon + 1, to: body },
            members: members(file, body + 1, item.to),
            clauses: Vec::new(),
            words: item,
            column,
            public,
            open,
        })
    }
}

/// The fields or constructors under a `where`.
fn members(file: &File, from: usize, to: usize) -> Vec<Member> {
    let mut found = Vec::new();
    for item in items(file, Span { from, to }) {
        let Some(colon) = find(file, item, ":") else {
            continue;
        };
        for k in item.from..colon {
            if file.word(k) != "pub" {
                found.push(Member { name: lex::plain(file.word(k)).to_string(), word: k, of: Span { from: colon + 1, to: item.to } });
            }
        }
    }
    found
}

/// The leaves of a `use` line, without the word `use`.
pub fn use_line(file: &mut File, told: &str, line: usize) {
    let told = told.trim().trim_end_matches(';');
    let told = told.strip_prefix("package.").unwrap_or(told);
    let mut leaf = |here: &str, path: &str, name: Option<&str>| {
        file.uses.push(Use { here: here.to_string(), path: path.to_string(), name: name.map(str::to_string), line });
    };
    if let Some((path, names)) = told.split_once(".{") {
        for name in names.trim_end_matches('}').split(',').map(str::trim) {
            if name.is_empty() {
                continue;
            }
            let (there, here) = name.split_once(" as ").unwrap_or((name, name));
            leaf(here.trim(), path, Some(there.trim()));
        }
    } else if let Some((path, here)) = told.split_once(" as ") {
        leaf(here.trim(), path.trim(), None);
    } else if let Some(path) = told.strip_suffix(".*") {
        file.globs.push(path.to_string());
    } else {
        leaf(told.rsplit('.').next().unwrap_or(told), told, None);
    }
}

#[cfg(test)]
mod tests {
    use super::*;

    const SAMPLE: &str = "-- what it is for\nuse a.B.{c, d as e}\nuse a.B as F\n\n-- \"quoted\"\n-- more\nabbrev pub f : ℕ → ℕ\nf zero = zero\nf (suc n) = n\n\n\
        pub data Place : Type 0 where\n  edge : ℕ → Place\n  empty : Place\n\nmodule _ (G : Instance) where\n  -- inner\n  g : ℕ\n  g = h\n    where\n      h : ℕ\n      h = 1\n\n  \
        pub record R (M N : Plan) : Type 0 where\n    pub one two : ℕ\n";

    fn sample() -> (File, Vec<Decl>) {
        let mut all = Vec::new();
        let file = read("t", PathBuf::new(), SAMPLE.to_string(), 0, &mut all);
        (file, all)
    }

    #[test]
    fn declarations_by_layout() {
        let (file, all) = sample();
        let names: Vec<&str> = all.iter().map(|d| d.name.as_str()).collect();
        assert_eq!(names, ["f", "Place", "g", "R"]);
        assert_eq!(all[0].clauses.len(), 2);
        assert_eq!(all[0].note, ["\"quoted\"", "more"]);
        assert!(all[0].open && all[0].public && !all[2].open);
        assert_eq!(all[2].sections, [0]);
        assert_eq!(file.slice(file.sections[0]), "(G : Instance)");
    }

    #[test]
    fn members_of_data_and_records() {
        let (file, all) = sample();
        let names = |d: &Decl| -> Vec<String> { d.members.iter().map(|m| m.name.clone()).collect() };
        assert_eq!(names(&all[1]), ["edge", "empty"]);
        assert_eq!(names(&all[3]), ["one", "two"]);
        assert_eq!(file.slice(all[3].members[1].of), "ℕ");
        assert_eq!(file.slice(all[3].parameters), "(M N : Plan)");
    }

    #[test]
    fn use_lines() {
        let (file, _) = sample();
        let told: Vec<(&str, &str, Option<&str>)> = file.uses.iter().map(|u| (u.here.as_str(), u.path.as_str(), u.name.as_deref())).collect();
        assert_eq!(told, [("c", "a.B", Some("c")), ("e", "a.B", Some("d")), ("F", "a.B", None)]);
    }
}
