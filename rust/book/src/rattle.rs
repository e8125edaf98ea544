//! A file of code taken apart: its types, and its functions with their contracts.

use crate::lex::{self, Kind, Word};
use crate::source::{self, Decl, File, Member, Sort};
use crate::term::Span;
use std::path::PathBuf;

/// A function of the code.
#[derive(Clone, Debug)]
pub struct Function {
    /// `Desk::find`, or the name alone
    pub name: String,
    pub file: usize,
    pub line: usize,
    pub public: bool,
    pub exported: bool,
    /// name and type of each parameter
    pub parameters: Vec<(String, Span)>,
    pub result: Option<Span>,
    /// the terms of `requires` and `ensures`
    pub contract: Vec<Span>,
    /// from `fn` to the end of its contract
    pub header: Span,
    pub body: Span,
    pub note: Vec<String>,
}

/// Reads a file of code: its types are appended to `all`.
pub fn read(path: &str, place: PathBuf, text: String, number: usize, all: &mut Vec<Decl>) -> (File, Vec<Function>) {
    let (comments, words) = lex::code_words(&text).into_iter().partition(|w: &Word| w.kind == Kind::Comment);
    let file = File { path: path.to_string(), place, text, words, comments, ..File::default() };
    let mut reader = Reader { number, file, all, functions: Vec::new(), owner: None, at: 0 };
    reader.run();
    (reader.file, reader.functions)
}

struct Reader<'a> {
    number: usize,
    file: File,
    all: &'a mut Vec<Decl>,
    functions: Vec<Function>,
    /// the type of the `impl` that is open, and its last word
    owner: Option<(String, usize)>,
    at: usize,
}

/// The leaves of a `use` line of the code, each as a path: `a::{b, c::{d, e}}` has three.
fn leaves(before: &str, told: &str) -> Vec<String> {
    let told = told.trim();
    let Some((path, rest)) = told.split_once('{') else {
        return vec![format!("{before}{told}")];
    };
    let inner = rest.rsplit_once('}').map_or(rest, |r| r.0);
    let (mut found, mut depth, mut from) = (Vec::new(), 0, 0);
    let before = format!("{before}{}", path.trim());
    for (k, c) in inner.char_indices().chain([(inner.len(), ',')]) {
        match c {
            '{' => depth += 1,
            '}' => depth -= 1,
            ',' if depth == 0 => {
                if !inner[from..k].trim().is_empty() {
                    found.extend(leaves(&before, &inner[from..k]));
                }
                from = k + 1;
            }
            _ => {}
        }
    }
    found
}

/// The comment lines above a place, attributes between passed over.
fn note_above(file: &File, mut line: usize) -> Vec<String> {
    let lines: Vec<&str> = file.text.lines().collect();
    let mut found = Vec::new();
    while line >= 2 {
        let above = lines[line - 2].trim();
        if let Some(told) = above.strip_prefix("//") {
            found.push(told.trim().to_string());
        } else if !above.starts_with("#[") {
            break;
        }
        line -= 1;
    }
    found.reverse();
    found
}

impl Reader<'_> {
    fn here(&self) -> &str {
        if self.at < self.file.words.len() {
            self.file.word(self.at)
        } else {
            ""
        }
    }

    fn run(&mut self) {
        let (mut public, mut exported, mut first) = (false, false, 0);
        while self.at < self.file.words.len() {
            if self.owner.as_ref().is_some_and(|o| o.1 <= self.at) {
                self.owner = None;
            }
            match self.here() {
                "pub" => {
                    first = self.at;
                    public = true;
                    self.at += 1;
                    if self.here() == "(" {
                        public = false;
                        self.at = self.closing(self.at);
                    }
                    continue;
                }
                "extern" => {
                    exported = true;
                    self.at += 2;
                    continue;
                }
                "fn" => self.function(public, exported),
                "struct" | "enum" => self.code_type(first),
                "impl" => self.open_impl(),
                "use" => self.use_line(),
                _ => self.at += 1,
            }
            public = false;
            exported = false;
        }
    }

    /// The place behind the bracket that closes the one at `open`.
    fn closing(&self, open: usize) -> usize {
        let mut depth = 0i32;
        for k in open..self.file.words.len() {
            match self.file.word(k) {
                "(" | "{" | "[" => depth += 1,
                ")" | "}" | "]" => depth -= 1,
                _ => {}
            }
            if depth == 0 {
                return k + 1;
            }
        }
        self.file.words.len()
    }

    fn open_impl(&mut self) {
        let name = self.file.word(self.at + 1).to_string();
        while self.here() != "{" && self.at < self.file.words.len() {
            self.at += 1;
        }
        self.owner = Some((name, self.closing(self.at) - 1));
        self.at += 1;
    }

    fn use_line(&mut self) {
        let ghost = self.at > 0 && self.file.word(self.at - 1) == "ghost";
        let start = self.file.words[self.at].end;
        let line = self.file.words[self.at].line;
        let end = self.file.text[start..].find(';').map_or(self.file.text.len(), |k| start + k);
        while self.at < self.file.words.len() && self.file.words[self.at].start < end {
            self.at += 1;
        }
        let told = self.file.text[start..end].trim().to_string();
        if ghost {
            source::use_line(&mut self.file, &told, line);
        } else {
            for leaf in leaves("", &told) {
                if let Some((path, name)) = leaf.rsplit_once("::") {
                    source::use_line(&mut self.file, &format!("code:{}.{{{name}}}", path.replace("::", ".")), line);
                }
            }
        }
    }

    fn code_type(&mut self, first: usize) {
        let sort = if self.here() == "struct" { Sort::Struct } else { Sort::Enum };
        let name = self.file.word(self.at + 1).to_string();
        let from = if self.file.words[first].line == self.file.words[self.at].line { first } else { self.at };
        let nothing = Span { from: 0, to: 0 };
        self.at += 2;
        let parameters = match self.here() {
            "<" => Span { from: self.at + 1, to: self.file.behind_types(self.at) - 1 },
            _ => nothing,
        };
        while !matches!(self.here(), "{" | "(" | ";" | "") {
            self.at += 1;
        }
        let to = self.closing(self.at);
        let members = self.members(self.at + 1, to - 1, sort);
        let line = self.file.words[from].line;
        self.all.push(Decl {
            name,
            sort,
            file: self.number,
            line,
            note: note_above(&self.file, line),
            sections: Vec::new(),
            parameters,
            of: nothing,
            members,
            clauses: Vec::new(),
            words: Span { from, to },
            column: 0,
            public: true,
            open: true,
        });
        self.file.decls.push(self.all.len() - 1);
        self.at = to;
    }

    /// Fields with their types, or variants with what they hold.
    fn members(&self, from: usize, to: usize, sort: Sort) -> Vec<Member> {
        let mut found = Vec::new();
        let mut at = from;
        while at < to {
            if matches!(self.file.word(at), "pub" | ",") {
                at += 1;
                continue;
            }
            let name = at;
            let mut end = at + 1;
            while end < to && self.file.word(end) != "," {
                end = match self.file.word(end) {
                    "(" | "[" | "{" => self.closing(end),
                    _ => end + 1,
                };
            }
            let skip = if sort == Sort::Struct { 2 } else { 1 };
            found.push(Member { name: self.file.word(name).to_string(), word: name, of: Span { from: (name + skip).min(end), to: end } });
            at = end;
        }
        found
    }

    fn function(&mut self, public: bool, exported: bool) {
        let start = self.at;
        let name = self.file.word(self.at + 1).to_string();
        let line = self.file.words[start].line;
        self.at += 2;
        if self.here() == "<" {
            self.at = self.file.behind_types(self.at);
        }
        let open = self.at;
        self.at = self.closing(open);
        let parameters = self.parameters(open + 1, self.at - 1);
        let result = self.result();
        let contract = self.contract();
        let header = Span { from: start, to: self.at };
        let end = if self.here() == "{" { self.closing(self.at) } else { self.at + 1 };
        let name = match &self.owner {
            Some((owner, _)) => format!("{owner}::{name}"),
            None => name,
        };
        self.functions.push(Function {
            name,
            file: self.number,
            line,
            public,
            exported,
            parameters,
            result,
            contract,
            header,
            body: Span { from: self.at, to: end },
            note: note_above(&self.file, line),
        });
        self.at = end;
    }

    fn parameters(&self, from: usize, to: usize) -> Vec<(String, Span)> {
        let mut found = Vec::new();
        let mut at = from;
        while at < to {
            let mut end = at;
            while end < to && self.file.word(end) != "," {
                end = match self.file.word(end) {
                    "(" | "[" => self.closing(end),
                    "<" => self.file.behind_types(end),
                    _ => end + 1,
                };
            }
            let mut name = at;
            while matches!(self.file.word(name), "mut" | "&") {
                name += 1;
            }
            found.push((self.file.word(name).to_string(), Span { from: (name + 2).min(end), to: end }));
            at = end + 1;
        }
        found
    }

    fn result(&mut self) -> Option<Span> {
        if self.here() != "-" {
            return None;
        }
        let from = self.at + 2;
        self.at = from;
        while !matches!(self.here(), "requires" | "ensures" | "{" | ";" | "") {
            self.at = match self.here() {
                "[" | "(" => self.closing(self.at),
                _ => self.at + 1,
            };
        }
        Some(Span { from, to: self.at })
    }

    fn contract(&mut self) -> Vec<Span> {
        let mut found = Vec::new();
        while matches!(self.here(), "requires" | "ensures") {
            let named = usize::from(self.file.word(self.at + 1) != "{");
            let open = self.at + 1 + named;
            let end = self.closing(open);
            found.push(Span { from: open + 1, to: end - 1 });
            self.at = end;
        }
        found
    }
}

#[cfg(test)]
mod tests {
    use super::*;

    #[test]
    fn types_and_functions() {
        let text = "// a file\n#![tactic(auto)]\n\nghost use a.B.{c};\nuse x::Y;\nuse z::{\n    U, v::{W, X},\n};\n\n// the reply\n#[derive(Drop)]\npub struct R {\n    pub desk: Desk,\n    pub flat: [u8; 3],\n}\npub enum E {\n    None(usize, K),\n    Last,\n}\n\
            impl R {\n    // does\n    pub fn find<'a, K: Ord<K>>(self, out: &mut [u8]) -> E\n        requires { a }\n        ensures says { c result }\n    {\n        x::go(out)\n    }\n}\npub(crate) fn inner() {}\n";
        let mut all = Vec::new();
        let (file, functions) = read("t", PathBuf::new(), text.to_string(), 0, &mut all);
        assert_eq!(all[0].note, ["the reply"]);
        let names: Vec<&str> = all[0].members.iter().map(|m| m.name.as_str()).collect();
        assert_eq!(names, ["desk", "flat"]);
        assert_eq!(file.slice(all[1].members[0].of), "(usize, K)");
        assert_eq!(functions[0].name, "R::find");
        assert_eq!(file.slice(functions[0].contract[0]), "a");
        assert_eq!(file.slice(functions[0].contract[1]), "c result");
        assert_eq!(file.slice(functions[0].parameters[1].1), "&mut [u8]");
        assert!(functions[0].public && !functions[1].public);
        assert_eq!(functions[0].note, ["does"]);
        let uses: Vec<(&str, &str)> = file.uses.iter().skip(1).map(|u| (u.path.as_str(), u.here.as_str())).collect();
        assert_eq!(uses, [("code:x", "Y"), ("code:z", "U"), ("code:z.v", "W"), ("code:z.v", "X")]);
    }
}
