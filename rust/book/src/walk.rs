//! A declaration walked through: each of its words that is a name gets what it leads to.

mod patterns;
mod terms;

use crate::lex::{self, Kind};
use crate::names::{Library, Scope, Target};
use crate::rattle::Function;
use crate::source::Sort;
use crate::term::{Binder, Clause, Pattern, Span, Term};
use crate::types::{Env, Store, Trees, Type};
use std::collections::{BTreeMap, BTreeSet};
use std::rc::Rc;

/// What a word is.
#[derive(Clone, Copy, PartialEq, Eq, Debug)]
pub enum Link {
    To(Target),
    /// bound here: a variable
    Bound,
    /// a word of contracts, by its place among them
    Contract(usize),
    /// a field of a record that cannot be told
    Untold,
    /// leads nowhere
    Lost,
}

/// The words of a declaration that are names.
#[derive(Default, Clone)]
pub struct Links {
    pub words: BTreeMap<usize, Link>,
    /// clauses with the constructors that they are for, and values of fields with their field: words that count only where those are met
    pub cases: Vec<(Span, Vec<Target>)>,
    /// words that stand in patterns, and the names of fields where a record is built or declared
    pub patterns: BTreeSet<usize>,
    /// the types of the fields that are declared here
    pub fields: Vec<(Span, Target)>,
    /// the records that are built here
    pub built: BTreeSet<usize>,
}

struct Local {
    name: String,
    of: Type,
    stands: Type,
}

/// A field whose record is not known yet.
struct Pending {
    word: usize,
    of: Type,
    result: Type,
}

struct Walk<'a> {
    library: &'a Library,
    store: Store<'a>,
    file: usize,
    decl: Option<usize>,
    scope: Rc<Scope>,
    locals: Vec<Local>,
    pending: Vec<Pending>,
    contract: bool,
    /// the type of what a call returns, in its contract
    result: Type,
    links: Links,
    /// the constructors of the patterns of the clause that is read
    matched: Vec<Target>,
}

/// Resolves the names of a declaration.
pub fn declaration(trees: &Trees, decl: usize) -> Links {
    let library = trees.library;
    let d = &library.decls[decl];
    if d.sort.is_code() {
        return code_names(library, d.file, d.words);
    }
    let mut walk = Walk::new(trees, d.file, Some(decl));
    walk.enter_sections(decl);
    match d.sort {
        Sort::Definition => walk.definition(decl),
        _ => walk.members(decl),
    }
    walk.settle();
    walk.links
}

/// Resolves the names of a declaration's statement alone.
pub fn statement(trees: &Trees, decl: usize) -> Links {
    let library = trees.library;
    let d = &library.decls[decl];
    let mut walk = Walk::new(trees, d.file, Some(decl));
    walk.enter_sections(decl);
    let term = trees.term(d.file, d.of);
    walk.mark_own(Span { from: d.words.from, to: d.of.from }, &d.name, decl);
    walk.check(&term, &Type::Universe);
    walk.settle();
    walk.links
}

/// Resolves the names of a contract, and the types of its call's header.
pub fn contract(trees: &Trees, function: &Function) -> Links {
    let library = trees.library;
    let mut walk = Walk::new(trees, function.file, None);
    walk.contract = true;
    let owner = function.name.split_once("::").map(|o| o.0);
    for (name, span) in &function.parameters {
        let of = match (name.as_str(), owner) {
            ("self", Some(owner)) => {
                let found = library.declared(library.crate_of(function.file).unwrap_or(""), owner);
                found.map_or(Type::Unknown, |d| Type::Named(Target::Decl(d), Vec::new()))
            }
            _ => walk.store.code_type(function.file, *span),
        };
        walk.push(name, of);
    }
    walk.result = function.result.map_or(Type::Unknown, |s| walk.store.code_type(function.file, s));
    for &span in &function.contract {
        let term = trees.term(function.file, span);
        walk.check(&term, &Type::Universe);
    }
    walk.settle();
    let header = code_names(library, function.file, function.header);
    for (word, link) in header.words {
        let inside = function.contract.iter().any(|c| c.from <= word && word < c.to);
        if !inside {
            walk.links.words.entry(word).or_insert(link);
        }
    }
    walk.links
}

/// The names of types in words of the code.
fn code_names(library: &Library, file: usize, span: Span) -> Links {
    let source = &library.files[file];
    let mut links = Links::default();
    for k in span.from..span.to {
        let word = source.word(k);
        let named = source.words[k].kind == Kind::Name && word.starts_with(char::is_uppercase);
        if !named {
            continue;
        }
        if let Some(target) = library.in_code(file, word) {
            links.words.insert(k, Link::To(target));
        }
    }
    links
}

impl<'a> Walk<'a> {
    fn new(trees: &'a Trees<'a>, file: usize, decl: Option<usize>) -> Self {
        Walk {
            library: trees.library,
            store: Store::new(trees),
            file,
            decl,
            scope: trees.library.scope(file),
            locals: Vec::new(),
            pending: Vec::new(),
            contract: false,
            result: Type::Unknown,
            links: Links::default(),
            matched: Vec::new(),
        }
    }

    fn word(&self, k: usize) -> &'a str {
        self.library.files[self.file].word(k)
    }

    fn link(&mut self, k: usize, link: Link) {
        self.links.words.insert(k, link);
    }

    fn push(&mut self, name: &str, of: Type) {
        let stands = match self.store.seen(&of) {
            Type::Universe => self.store.fresh(),
            _ => Type::Unknown,
        };
        self.locals.push(Local { name: lex::plain(name).to_string(), of, stands });
    }

    fn local(&self, name: &str) -> Option<&Local> {
        let name = lex::plain(name);
        self.locals.iter().rev().find(|l| l.name == name)
    }

    /// The type that a term of this file says, where it stands.
    fn eval(&mut self, term: &Term) -> Type {
        let mut env: Env = self.locals.iter().map(|l| (l.name.clone(), l.stands.clone())).collect();
        self.store.eval(term, self.file, &mut env)
    }

    fn binders(&mut self, binders: &[Binder]) {
        for binder in binders {
            let mut of = Type::Unknown;
            if let Some(term) = &binder.of {
                self.check(term, &Type::Universe);
                of = self.eval(term);
            }
            for &k in &binder.names {
                self.link(k, Link::Bound);
                let name = self.word(k).to_string();
                self.push(&name, of.clone());
            }
        }
    }

    fn enter_sections(&mut self, decl: usize) {
        let d = &self.library.decls[decl];
        for &s in &d.sections {
            let span = self.library.files[d.file].sections[s];
            let binders = self.store.trees.binders(d.file, span);
            self.binders(&binders);
        }
    }

    fn definition(&mut self, decl: usize) {
        let d = &self.library.decls[decl];
        let term = self.store.trees.term(d.file, d.of);
        self.mark_own(d.words, &d.name, decl);
        let before = self.locals.len();
        self.check(&term, &Type::Universe);
        self.locals.truncate(before);
        let of = self.eval(&term);
        for &clause in &d.clauses {
            self.matched.clear();
            self.clause(clause, &d.name, &of);
            let matched = std::mem::take(&mut self.matched);
            self.links.cases.push((clause, matched));
        }
    }

    /// The declared name where it is declared, and the names on its `unfolding` line.
    fn mark_own(&mut self, span: Span, name: &str, decl: usize) {
        let first = (span.from..span.to).find(|&k| self.word(k) == name);
        if let Some(k) = first {
            self.link(k, Link::To(Target::Decl(decl)));
            self.levels(k + 1, decl);
        }
        let d = &self.library.decls[decl];
        let body = d.clauses.first().map_or(d.of.to, |c| c.from);
        let line = (d.of.to..body.min(span.to)).skip_while(|&k| self.word(k) == "unfolding");
        for k in line.collect::<Vec<_>>() {
            if let Some(&target) = self.scope.names.get(self.word(k)) {
                self.link(k, Link::To(target));
            }
        }
    }

    /// Levels in braces behind the declared name: they are bound in the whole declaration.
    fn levels(&mut self, from: usize, decl: usize) {
        let d = &self.library.decls[decl];
        for k in from..d.parameters.from.min(d.of.from) {
            let name = self.word(k).to_string();
            if self.library.files[self.file].words[k].kind == Kind::Name && name != ":" {
                self.link(k, Link::Bound);
                self.push(&name, Type::Unknown);
            }
        }
    }

    /// A record's or a data type's parameters and members; a field is a name in those after it.
    fn members(&mut self, decl: usize) {
        let d = &self.library.decls[decl];
        self.mark_own(Span { from: d.words.from, to: d.of.from }, &d.name, decl);
        let binders = self.store.trees.binders(d.file, d.parameters);
        self.binders(&binders);
        let term = self.store.trees.term(d.file, d.of);
        self.check(&term, &Type::Universe);
        for (m, member) in d.members.iter().enumerate() {
            self.link(member.word, Link::To(Target::Member(decl, m)));
            self.links.patterns.insert(member.word);
            self.links.fields.push((member.of, Target::Member(decl, m)));
            let term = self.store.trees.term(d.file, member.of);
            let before = self.locals.len();
            self.check(&term, &Type::Universe);
            self.locals.truncate(before);
            if d.sort == Sort::Record {
                let of = self.eval(&term);
                self.push(&member.name, of);
            }
        }
    }

    fn clause(&mut self, span: Span, name: &str, of: &Type) {
        let clause: Clause = self.store.trees.parse(self.file, span, |p| p.clause());
        let before = self.locals.len();
        let mut rest = of.clone();
        let mut patterns = clause.left.as_slice();
        let prefix = matches!(patterns.first(), Some(Pattern::Name(k)) if self.word(*k) == name);
        if prefix {
            if let Pattern::Name(k) = &patterns[0] {
                let own = self.decl.filter(|&d| self.library.decls[d].name == name);
                self.link(*k, own.map_or(Link::Bound, |d| Link::To(Target::Decl(d))));
            }
            patterns = &patterns[1..];
        } else {
            for &k in &clause.operators {
                let own = self.decl.filter(|&d| lex::parts(&self.library.decls[d].name).contains(&self.word(k)));
                self.link(k, own.map_or(Link::Bound, |d| Link::To(Target::Decl(d))));
            }
        }
        for pattern in patterns {
            if !matches!(pattern, Pattern::Implicit(_)) {
                while let Type::Function(_, to, true) = rest {
                    rest = *to;
                }
            }
            match self.store.unfolded(&rest) {
                Type::Function(from, to, _) => {
                    self.bind(pattern, &from);
                    rest = *to;
                }
                _ => self.bind(pattern, &Type::Unknown),
            }
        }
        let inner = self.where_block(span);
        if let Some(right) = &clause.right {
            self.check(right, &rest);
        }
        for (name, of, clauses) in inner {
            for clause in clauses {
                self.clause(clause, &name, &of);
            }
        }
        self.locals.truncate(before);
    }

    /// The declarations under a clause's `where`: their names are bound, their clauses are handed back.
    fn where_block(&mut self, span: Span) -> Vec<(String, Type, Vec<Span>)> {
        let source = &self.library.files[self.file];
        let Some(from) = (span.from..span.to).find(|&k| source.word(k) == "where") else {
            return Vec::new();
        };
        let mut found: Vec<(String, Type, Vec<Span>)> = Vec::new();
        for item in crate::source::items(source, Span { from: from + 1, to: span.to }) {
            let signature = item.from + 1 < item.to && source.word(item.from + 1) == ":";
            if signature {
                let term = self.store.trees.term(self.file, Span { from: item.from + 2, to: item.to });
                self.link(item.from, Link::Bound);
                let before = self.locals.len();
                self.check(&term, &Type::Universe);
                self.locals.truncate(before);
                let of = self.eval(&term);
                let name = source.word(item.from).to_string();
                self.push(&name, of.clone());
                found.push((name, of, Vec::new()));
            } else if source.word(item.from) != "unfolding" {
                if let Some(last) = found.last_mut() {
                    last.2.push(item);
                }
            }
        }
        found
    }
}
