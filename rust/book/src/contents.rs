//! What the book has: calls, definitions, laws, edits, quotations, each with what belongs beside it, and the faults that were found.

use crate::code::Graph;
use crate::edits::{self, Changed, Edit};
use crate::lists::Lists;
use crate::names::{Library, Target};
use crate::papers::{quotations, Papers, Place};
use crate::reach::{self, Call, Names};
use crate::rows::{self, Row};
use crate::source::File;
use crate::walk::{Link, Links};
use std::collections::{BTreeMap, BTreeSet, HashMap};
use std::path::Path;

/// A quotation has at least so many words to stand beside a definition.
const SENTENCE: usize = 3;

/// A quotation, and where it stands.
pub type Quotation = (String, Place);

/// How many names there are of each kind.
#[derive(Default, Clone, Copy, Debug)]
pub struct Counts {
    pub linked: usize,
    pub bound: usize,
    pub built: usize,
    pub untold: usize,
    pub lost: usize,
}

/// All that the book shows.
pub struct Book<'a> {
    pub names: &'a Names<'a>,
    /// the text of docs/LANDINGS.md
    pub landings: String,
    pub calls: Vec<Call>,
    /// the definitions that the calls lead to
    pub entries: BTreeSet<usize>,
    /// what is built into the checker and is named in the book
    pub words: BTreeSet<String>,
    /// laws that speak of the book's definitions and of nothing else
    pub laws: Vec<usize>,
    pub laws_of: HashMap<usize, Vec<usize>>,
    /// for a definition the crates with other laws about it, and how many
    pub other_laws: HashMap<usize, BTreeMap<String, usize>>,
    pub used_by: HashMap<usize, BTreeSet<usize>>,
    pub edits: Vec<Edit>,
    pub edits_of: HashMap<usize, Vec<usize>>,
    pub quoted: HashMap<usize, Vec<Quotation>>,
    pub papers: Papers,
    pub rows: Vec<Row>,
    pub lists: Lists,
    pub graph: Graph,
    pub counts: Counts,
    pub faults: Vec<String>,
}

impl<'a> Book<'a> {
    /// Gathers the book from the project; `own` is the folder of its lists.
    pub fn gather(names: &'a Names<'a>, own: &Path) -> std::io::Result<Book<'a>> {
        let library = names.library();
        let gate = std::fs::read_to_string(library.root.join(".ci/run"))?;
        let calls = reach::calls(names, &reach::public_crates(&gate));
        let landings = std::fs::read_to_string(library.root.join("docs/LANDINGS.md"))?;
        let lists = Lists::read(&own.join("lists"), &landings)?;
        let architecture = std::fs::read_to_string(library.root.join("docs/ARCHITECTURE.md"))?;
        let (rows, faults) = rows::read(library, &architecture);
        let starts: Vec<usize> = calls.iter().flat_map(|c| Names::targets(&c.links)).collect();
        let stated = lists.demands.iter().flat_map(|b| b.names("laws")).filter_map(|l| library.named(l));
        let entries = names.closure(starts.into_iter().chain(stated));
        let mut book = Book {
            names,
            landings,
            calls,
            entries,
            words: BTreeSet::new(),
            laws: Vec::new(),
            laws_of: HashMap::new(),
            other_laws: HashMap::new(),
            used_by: HashMap::new(),
            edits: edits::read(library)?,
            edits_of: HashMap::new(),
            quoted: HashMap::new(),
            papers: Papers::read(&own.join("papers"))?,
            rows,
            lists,
            graph: Graph::of(library),
            counts: Counts::default(),
            faults,
        };
        book.count_names();
        book.gather_laws();
        book.gather_edits();
        book.gather_quotations();
        book.check_lists();
        book.check_uses();
        book.faults.extend(book.graph.lost.iter().cloned());
        Ok(book)
    }

    pub fn library(&self) -> &'a Library {
        self.names.library()
    }

    /// A call by its name.
    pub fn call(&self, name: &str) -> Option<&Call> {
        self.calls.iter().find(|c| c.name == name)
    }

    /// The definitions that come to mind of a reader first: of the model.
    pub fn is_model(&self, decl: usize) -> bool {
        let library = self.library();
        let owner = library.crate_of(library.decls[decl].file);
        owner.is_some_and(|c| c == "model" || c.starts_with("model_"))
    }

    fn count_names(&mut self) {
        let library = self.library();
        let entries: Vec<usize> = self.entries.iter().copied().collect();
        for decl in entries {
            let links = self.names.links(decl);
            self.count(&links, library.decls[decl].file);
            for target in Names::targets(&links).filter(|&t| t != decl) {
                self.used_by.entry(target).or_default().insert(decl);
            }
        }
        for n in 0..self.calls.len() {
            let links = self.calls[n].links.clone();
            self.count(&links, library.functions[self.calls[n].function].file);
        }
    }

    fn count(&mut self, links: &Links, file: usize) {
        let library = self.library();
        for (&word, link) in &links.words {
            let told = || format!("{}:{}: {}", library.shown_place(file), library.files[file].words[word].line, library.files[file].word(word));
            match link {
                Link::To(Target::Built(k)) => {
                    self.counts.built += 1;
                    self.words.insert(library.built_name(*k));
                }
                Link::To(_) => self.counts.linked += 1,
                Link::Contract(n) => {
                    self.counts.built += 1;
                    self.words.insert(crate::names::CONTRACT_WORDS[*n].to_string());
                }
                Link::Bound => self.counts.bound += 1,
                Link::Untold => self.counts.untold += 1,
                Link::Lost => {
                    self.counts.lost += 1;
                    self.faults.push(format!("{} leads nowhere", told()));
                }
            }
        }
    }

    /// Laws: public statements whose proofs are shut. Those that name nothing but the book's definitions are shown.
    fn gather_laws(&mut self) {
        let library = self.library();
        for decl in 0..library.decls.len() {
            let d = &library.decls[decl];
            let Some(owner) = library.crate_of(d.file) else {
                continue;
            };
            let lemma = library.files[d.file].path.contains(".proofs") && library.proves_functions(owner);
            let shown = d.public && self.names.is_law(decl) && !lemma;
            if !shown || library.files[d.file].path.ends_with("Cases") {
                continue;
            }
            let links = self.names.links(decl);
            let about: BTreeSet<usize> = Names::targets(&links).filter(|&t| t != decl).collect();
            let in_book = |t: &usize| self.entries.contains(t) || library.crate_of(library.decls[*t].file).is_none();
            let speaks = about.iter().any(|&t| self.entries.contains(&t) && self.is_model(t));
            if about.iter().all(in_book) && speaks {
                self.laws.push(decl);
                for t in about {
                    self.laws_of.entry(t).or_default().push(decl);
                }
            } else {
                for t in about {
                    *self.other_laws.entry(t).or_default().entry(owner.to_string()).or_default() += 1;
                }
            }
        }
        for n in 0..self.laws.len() {
            let links = self.names.links(self.laws[n]);
            self.count(&links, library.decls[self.laws[n]].file);
        }
    }

    fn gather_edits(&mut self) {
        for (n, edit) in self.edits.iter().enumerate() {
            for changed in &edit.changed {
                if let Changed::Decl(d) = changed {
                    self.edits_of.entry(*d).or_default().push(n);
                }
            }
        }
    }

    /// The edits in the code of a call, by the number of calls between.
    pub fn edits_below(&self, call: &Call) -> Vec<(usize, usize)> {
        let depths = self.graph.depths(call.function);
        let mut found: Vec<(usize, usize)> = Vec::new();
        for (n, edit) in self.edits.iter().enumerate() {
            let depth = edit.changed.iter().filter_map(|c| match c {
                Changed::Function(f) => depths.get(f).copied(),
                _ => None,
            });
            found.extend(depth.min().map(|d| (d, n)));
        }
        found.sort_unstable();
        found
    }

    fn gather_quotations(&mut self) {
        let library = self.library();
        for (number, file) in library.files.iter().enumerate() {
            let Some(owner) = library.crate_of(number) else {
                continue;
            };
            if self.lists.said.iter().any(|b| b.all("crate").any(|c| c == owner)) {
                continue;
            }
            for (line, comment) in comments(file) {
                for quotation in quotations(&comment) {
                    let said = self.lists.said.iter().any(|b| b.all("said").any(|s| s == quotation));
                    if !said && self.papers.find(&quotation).is_none() {
                        let place = library.shown_place(number);
                        self.faults.push(format!("{place}:{line}: \"{quotation}\" is in no paper"));
                    }
                }
            }
        }
        let entries: Vec<usize> = self.entries.iter().chain(&self.laws).copied().collect();
        for decl in entries {
            let found = self.found(&library.decls[decl].note.join(" "));
            self.quoted.insert(decl, found);
        }
        for block in self.lists.sentences.clone() {
            let Some(decl) = library.named(block.get("of")) else {
                self.faults.push(format!("lists/sentences.txt: {} leads nowhere", block.get("of")));
                continue;
            };
            for words in block.all("words") {
                match self.papers.find(words) {
                    Some(place) => self.quoted.entry(decl).or_default().push((words.to_string(), place)),
                    None => self.faults.push(format!("lists/sentences.txt: \"{words}\" is in no paper")),
                }
            }
        }
    }

    /// The quotations of a comment that are in a paper and say something: no single words, no titles.
    pub fn found(&self, comment: &str) -> Vec<Quotation> {
        let all = quotations(comment).into_iter().filter(|q| crate::papers::words(q).len() >= SENTENCE);
        all.filter(|q| !self.papers.is_title(q)).filter_map(|q| self.papers.find(&q).map(|place| (q, place))).collect()
    }

    /// Every name and quotation of the lists that are written by hand.
    fn check_lists(&mut self) {
        let library = self.library();
        let mut lost = Vec::new();
        let mut check = |list: &str, name: &str, there: bool| {
            if !there {
                lost.push(format!("lists/{list}.txt: {name} leads nowhere"));
            }
        };
        for block in &self.lists.demands {
            for call in block.names("calls") {
                check("demands", call, call == "every" || self.call(call).is_some());
            }
            for law in block.names("laws") {
                check("demands", law, library.named(law).is_some());
            }
        }
        for block in &self.lists.refusals {
            let number = block.get("number");
            let by: Vec<usize> = block.names("by").into_iter().filter_map(|d| library.named(d)).collect();
            for name in block.names("by") {
                let says = library.named(name).is_some_and(|d| says_number(library, d, number));
                check("refusals", name, says);
            }
            for name in block.names("calls") {
                let comes = self.call(name).is_some_and(|c| by.iter().any(|d| c.comes_to.contains(d)));
                check("refusals", name, comes);
            }
        }
        for block in &self.lists.forms {
            for place in block.names("places") {
                check("forms", place, self.code_place(place).is_some());
            }
        }
        for block in &self.lists.mistakes {
            for edit in block.names("edits") {
                check("mistakes", edit, self.edits.iter().any(|e| e.name == edit));
            }
        }
        let lists = [&self.lists.demands, &self.lists.refusals, &self.lists.forms, &self.lists.mistakes];
        for block in lists.into_iter().flatten() {
            for words in block.all("words").chain(block.all("form")) {
                if self.papers.find(words).is_none() {
                    lost.push(format!("lists: \"{words}\" is in no paper"));
                }
            }
        }
        self.faults.extend(lost);
    }

    /// A type or a function of the code: where it stands, and its declaration if it is a type.
    pub fn code_place(&self, name: &str) -> Option<(String, Option<usize>)> {
        let library = self.library();
        let (owner, of) = name.split_once("::")?;
        if let Some(decl) = library.declared(owner, of) {
            let d = &library.decls[decl];
            return Some((format!("{}:{}", library.shown_place(d.file), d.line), Some(decl)));
        }
        let function = library.functions.iter().find(|f| f.name == name || (f.name == of && library.crate_of(f.file) == Some(owner)))?;
        Some((format!("{}:{}", library.shown_place(function.file), function.line), None))
    }

    fn check_uses(&mut self) {
        for dangling in self.library().dangling() {
            self.faults.push(format!("{}: {} leads nowhere", dangling.place, dangling.name));
        }
    }

    /// How many lines a declaration has in the book.
    pub fn lines(&self, decl: usize) -> usize {
        let library = self.library();
        let d = &library.decls[decl];
        let to = if self.names.is_law(decl) { d.of.to } else { d.words.to };
        library.files[d.file].words[to - 1].line - library.files[d.file].words[d.words.from].line + 1
    }
}

/// Whether a declaration has a number among its words.
pub fn says_number(library: &Library, decl: usize, number: &str) -> bool {
    let d = &library.decls[decl];
    (d.words.from..d.words.to).any(|k| library.files[d.file].word(k) == number)
}

/// The comments of a file, lines that belong together joined, each with the line that it begins in.
pub fn comments(file: &File) -> Vec<(usize, String)> {
    let mut found: Vec<(usize, String)> = Vec::new();
    let mut last: Option<(usize, usize)> = None;
    for word in &file.comments {
        let told = word.of(&file.text).trim_start_matches(['-', '/']).trim();
        match (last, found.last_mut()) {
            (Some((line, column)), Some(block)) if line + 1 == word.line && column == word.column => {
                block.1.push(' ');
                block.1.push_str(told);
            }
            _ => found.push((word.line, told.to_string())),
        }
        last = Some((word.line, word.column));
    }
    found
}

/// Where a declaration belongs in the book.
#[derive(Clone, Copy, PartialEq, Eq, PartialOrd, Ord, Debug)]
pub enum Chapter {
    Promises,
    Model,
    Code,
    Kit,
}

impl Book<'_> {
    pub fn chapter(&self, decl: usize) -> Chapter {
        let library = self.library();
        let d = &library.decls[decl];
        match d.sort {
            _ if library.crate_of(d.file).is_none() => Chapter::Kit,
            sort if sort.is_code() => Chapter::Code,
            _ if self.is_model(decl) => Chapter::Model,
            _ => Chapter::Promises,
        }
    }
}
