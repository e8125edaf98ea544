//! Which functions a call comes to: each call in a body, in its order, is led to a function of the project or of the kit's libraries.

use crate::kit::{files_below, parts, STD};
use crate::lex::Kind;
use crate::names::Library;
use crate::rattle::Function;
use crate::source::{File, Sort};
use crate::term::Span;
use std::cell::RefCell;
use std::collections::{HashMap, HashSet};

/// Words before a bracket that call nothing.
const KEYWORDS: [&str; 11] = ["if", "else", "while", "loop", "for", "in", "match", "return", "let", "mut", "as"];
/// Words of a body behind which the checker's language stands in braces.
const STATED: [&str; 2] = ["invariant", "decreases"];
/// Methods of slices and results, which a reader knows from the language.
const BUILT: [&str; 4] = ["len", "copy_from_slice", "is_err", "is_ok"];
/// Variants that stand in every file.
const VARIANTS: [&str; 4] = ["Some", "None", "Ok", "Err"];
/// First words of a path that stay in the crate.
const HERE: [&str; 3] = ["super", "crate", "self"];

/// What is called: a function of the project by its number, or `library::function` of the kit.
#[derive(Clone, PartialEq, Eq, Hash, Debug)]
pub enum Callee {
    Own(usize),
    Kit(String),
}

/// For each function what its body calls.
pub struct Graph {
    /// in the order of the text, arguments before the call that takes them, each once
    pub calls: Vec<Vec<Callee>>,
    /// calls that lead to no function
    pub lost: Vec<String>,
}

impl Graph {
    pub fn of(library: &Library) -> Graph {
        let resolver = Resolver::new(library);
        let mut graph = Graph { calls: Vec::new(), lost: Vec::new() };
        for function in &library.functions {
            let calls = resolver.called(function, &mut graph.lost);
            graph.calls.push(calls);
        }
        graph
    }

    /// The functions of the project that one calls, but for itself.
    pub fn below(&self, from: usize) -> impl Iterator<Item = usize> + '_ {
        self.calls[from].iter().filter_map(move |callee| match callee {
            Callee::Own(f) if *f != from => Some(*f),
            _ => None,
        })
    }

    /// The functions below one, each with the least number of calls between.
    pub fn depths(&self, from: usize) -> HashMap<usize, usize> {
        let mut found = HashMap::from([(from, 0)]);
        let mut queue = std::collections::VecDeque::from([from]);
        while let Some(f) = queue.pop_front() {
            let depth = found[&f] + 1;
            for g in self.below(f) {
                if let std::collections::hash_map::Entry::Vacant(place) = found.entry(g) {
                    place.insert(depth);
                    queue.push_back(g);
                }
            }
        }
        found
    }
}

/// What stands before a bracket.
enum Found {
    Call(Callee),
    /// a variant with what it holds, or a method of the language
    Value,
    Nothing,
}

impl Found {
    fn own(function: Option<usize>) -> Found {
        function.map_or(Found::Nothing, |f| Found::Call(Callee::Own(f)))
    }
}

struct Resolver<'a> {
    library: &'a Library,
    /// functions by crate and name
    functions: HashMap<(&'a str, &'a str), Vec<usize>>,
    methods: HashMap<&'a str, Vec<usize>>,
    /// the functions of the kit's libraries that were asked for, and the methods of its `std`
    kit: RefCell<HashMap<String, HashSet<String>>>,
}

impl<'a> Resolver<'a> {
    fn new(library: &'a Library) -> Self {
        let mut functions: HashMap<(&str, &str), Vec<usize>> = HashMap::new();
        let mut methods: HashMap<&str, Vec<usize>> = HashMap::new();
        for (n, f) in library.functions.iter().enumerate() {
            let owner = library.crate_of(f.file).unwrap_or("");
            functions.entry((owner, f.name.as_str())).or_default().push(n);
            if let Some((_, method)) = f.name.split_once("::") {
                methods.entry(method).or_default().push(n);
            }
        }
        Resolver { library, functions, methods, kit: RefCell::new(HashMap::new()) }
    }

    /// The calls of a body, each at its closing bracket; those that lead nowhere are told in `lost`.
    fn called(&self, function: &'a Function, lost: &mut Vec<String>) -> Vec<Callee> {
        let file = &self.library.files[function.file];
        let mut found: Vec<(usize, Callee)> = Vec::new();
        let mut at = function.body.from;
        while at + 1 < function.body.to {
            if STATED.contains(&file.word(at)) && file.word(at + 1) == "{" {
                at = behind(file, at + 1, function.body.to, "}");
                continue;
            }
            if file.words[at].kind == Kind::Name && file.word(at + 1) == "(" && !KEYWORDS.contains(&file.word(at)) {
                let (first, path) = path_at(file, function.body.from, at);
                let method = file.word(first - 1) == "." && file.word(first - 2) != ".";
                match if method { self.method(function, first) } else { self.path(function, &path) } {
                    Found::Call(callee) => found.push((behind(file, at + 1, function.body.to, ")"), callee)),
                    Found::Value => {}
                    Found::Nothing => {
                        let place = self.library.shown_place(function.file);
                        lost.push(format!("{place}:{}: {} leads nowhere", file.words[at].line, path.join("::")));
                    }
                }
            }
            at += 1;
        }
        found.sort_by_key(|f| f.0);
        let mut seen = HashSet::new();
        found.into_iter().map(|f| f.1).filter(|callee| seen.insert(callee.clone())).collect()
    }

    /// A method, by its place. Of those that several types have it is the one of its receiver's type.
    fn method(&self, function: &'a Function, at: usize) -> Found {
        let name = self.library.files[function.file].word(at);
        if BUILT.contains(&name) {
            return Found::Value;
        }
        match self.methods.get(name).map(Vec::as_slice) {
            Some(&[one]) => Found::own(Some(one)),
            Some(all) => Found::own(self.receiver(function, at - 2).and_then(|of| all.iter().copied().find(|&m| self.type_of(m) == Some(of)))),
            None if self.kit_has(STD, name) => Found::Call(Callee::Kit(format!("{STD}::{name}"))),
            None => Found::Nothing,
        }
    }

    /// The type that a method is of.
    fn type_of(&self, method: usize) -> Option<&'a str> {
        self.library.functions[method].name.split_once("::").map(|n| n.0)
    }

    /// The type of the name at a place of a body: what the last `let` of it before says, or what the call there hands back; or that of a parameter.
    fn receiver(&self, function: &'a Function, at: usize) -> Option<&'a str> {
        let file = &self.library.files[function.file];
        let name = file.word(at);
        let is_let = |k: &usize| file.word(*k) == name && matches!(file.word(k - 1), "let" | "mut") && matches!(file.word(k + 1), "=" | ":");
        let Some(bound) = (function.body.from..at).rev().find(is_let) else {
            return match function.parameters.iter().find(|p| p.0 == name)? {
                (own, _) if own == "self" => function.name.split_once("::").map(|n| n.0),
                (_, of) => first_type(file, *of),
            };
        };
        if file.word(bound + 1) == ":" {
            return first_type(file, Span { from: bound + 2, to: at });
        }
        let open = (bound..at).find(|&k| file.word(k) == "(")?;
        let (first, path) = path_at(file, bound, open - 1);
        match self.path(function, &path) {
            Found::Call(Callee::Own(called)) if first == bound + 2 => {
                let called = &self.library.functions[called];
                first_type(&self.library.files[called.file], called.result?)
            }
            _ => None,
        }
    }

    /// `name`, `crate::name`, `file::name`, `Type::method`, `Type::Variant` and `crate::Type::Variant`.
    fn path(&self, function: &Function, path: &[&str]) -> Found {
        let own = self.library.crate_of(function.file).unwrap_or("");
        let inner = path.iter().position(|p| !HERE.contains(p)).unwrap_or(0);
        match path[inner..] {
            [name] if VARIANTS.contains(&name) => Found::Value,
            // what is called is a closure that the function was given
            [name] if function.parameters.iter().any(|p| p.0 == name) => Found::Value,
            [name] if inner > 0 => Found::own(self.in_crate(own, name, None)),
            [name] => Found::own(self.in_crate(own, name, Some(function.file)).or_else(|| self.used(function.file, own, name))),
            [of, name] if is_type(of) => match self.type_owner(function.file, own, of) {
                Some(owner) => self.of_type(owner, of, name),
                None => Found::Nothing,
            },
            [owner, name] => match self.file_of(own, owner) {
                Some(file) => Found::own(self.in_crate(own, name, Some(file))),
                None => match self.in_crate(owner, name, None) {
                    None if self.kit_has(owner, name) => Found::Call(Callee::Kit(format!("{owner}::{name}"))),
                    own => Found::own(own),
                },
            },
            [STD, of, name] if self.kit_has(STD, name) => Found::Call(Callee::Kit(format!("{STD}::{of}::{name}"))),
            [owner, of, name] => self.of_type(owner, of, name),
            _ => Found::Nothing,
        }
    }

    /// Whether one of the kit's libraries has a function of a name.
    fn kit_has(&self, library: &str, name: &str) -> bool {
        if let Some(known) = self.kit.borrow().get(library) {
            return known.contains(name);
        }
        let all = kit_functions(self.library, library);
        let has = all.contains(name);
        self.kit.borrow_mut().insert(library.to_string(), all);
        has
    }

    /// The one function of a name in a crate, or in a file of it.
    fn in_crate(&self, owner: &str, name: &str, file: Option<usize>) -> Option<usize> {
        let all = self.functions.get(&(owner, name))?;
        let mut here = all.iter().filter(|&&f| file.is_none_or(|file| self.library.functions[f].file == file));
        let first = here.next()?;
        here.next().is_none().then_some(*first)
    }

    /// A function that a `use` line brings.
    fn used(&self, file: usize, own: &str, name: &str) -> Option<usize> {
        self.in_crate(self.brought_from(file, own, name)?, name, None)
    }

    /// The crate that a `use` line of the code brings a name from.
    fn brought_from(&self, file: usize, own: &'a str, name: &str) -> Option<&'a str> {
        let leaf = self.library.files[file].uses.iter().find(|u| u.here == name && u.path.starts_with("code:"))?;
        let owner = leaf.path["code:".len()..].split('.').next()?;
        Some(if HERE.contains(&owner) { own } else { owner })
    }

    fn type_owner(&self, file: usize, own: &'a str, of: &str) -> Option<&'a str> {
        let here = self.library.declared(own, of).map(|_| own);
        here.or_else(|| self.brought_from(file, own, of))
    }

    /// A method or a variant of a type.
    fn of_type(&self, owner: &str, of: &str, name: &str) -> Found {
        if let Some(method) = self.in_crate(owner, &format!("{of}::{name}"), None) {
            return Found::Call(Callee::Own(method));
        }
        let decl = self.library.declared(owner, of).map(|d| &self.library.decls[d]);
        match decl {
            Some(d) if d.sort == Sort::Enum && d.members.iter().any(|m| m.name == name) => Found::Value,
            _ => Found::Nothing,
        }
    }

    /// The file of a crate that is a module of it.
    fn file_of(&self, owner: &str, module: &str) -> Option<usize> {
        let files = &self.library.files;
        let named = |f: &usize| files[*f].path == format!("code:{owner}") && files[*f].place.file_stem().is_some_and(|s| s == module);
        (0..files.len()).find(named)
    }
}

fn is_type(name: &str) -> bool {
    name.starts_with(|c: char| c.is_uppercase())
}

/// The first name of a type in a type of the code.
fn first_type(file: &File, of: Span) -> Option<&str> {
    (of.from..of.to).map(|k| file.word(k)).find(|word| is_type(word))
}

/// The public functions of one of the kit's libraries; of `std` the methods too, of types and of traits. They are read off the lines that they begin in.
fn kit_functions(library: &Library, name: &str) -> HashSet<String> {
    let mut found = HashSet::new();
    for place in parts(name).into_iter().flat_map(|folder| files_below(&library.kit.join("rattle").join(folder).join("src"), "rt")) {
        let text = std::fs::read_to_string(&place).unwrap_or_default();
        for line in text.lines().map(str::trim_start) {
            let public = line.strip_prefix("pub fn ");
            let method = line.strip_prefix("final ").unwrap_or(line).strip_prefix("fn ").filter(|_| name == STD);
            found.extend(public.or(method).and_then(|l| Some(l[..l.find(['(', '<'])?].to_string())));
        }
    }
    found
}

/// The path that ends at a word, and the place of its first one.
fn path_at(file: &File, from: usize, mut at: usize) -> (usize, Vec<&str>) {
    let mut path = vec![file.word(at)];
    while at >= from + 3 && file.word(at - 1) == ":" && file.word(at - 2) == ":" {
        at -= 3;
        path.insert(0, file.word(at));
    }
    (at, path)
}

/// The place behind the bracket that closes the one at `open`.
fn behind(file: &File, open: usize, to: usize, close: &str) -> usize {
    let mut depth = 0i32;
    for k in open..to {
        let word = file.word(k);
        depth += i32::from(word == file.word(open)) - i32::from(word == close);
        if depth == 0 {
            return k + 1;
        }
    }
    to
}
