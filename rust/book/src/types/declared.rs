//! The types of what is declared: definitions, constructors, fields, and the types of the code.

use super::{Env, Store, Type};
use crate::names::Target;
use crate::source::Sort;
use crate::term::Span;

/// The module that most definitions take their types from.
const PRELUDE: &str = "Rattle.std.specs.Prelude";

impl Store<'_> {
    /// The names that a declaration is over, sections first, and whether each is explicit.
    fn parameters(&self, decl: usize) -> Vec<(String, bool)> {
        let library = self.library();
        let d = &library.decls[decl];
        let sections = d.sections.iter().map(|&s| library.files[d.file].sections[s]);
        let mut found = Vec::new();
        for span in sections.chain([d.parameters]) {
            for binder in self.trees.binders(d.file, span) {
                for &k in &binder.names {
                    found.push((library.files[d.file].word(k).to_string(), !binder.implicit));
                }
            }
        }
        found
    }

    /// The names of the types that a struct or an enum of the code is over.
    fn code_parameters(&self, decl: usize) -> Vec<String> {
        let d = &self.library().decls[decl];
        let source = &self.library().files[d.file];
        let named = (d.parameters.from..d.parameters.to).filter(|&k| matches!(source.word(k - 1), "<" | ",") && source.word(k) != "'");
        named.map(|k| source.word(k).to_string()).collect()
    }

    /// The type of a field of a record at some arguments.
    pub fn field(&mut self, decl: usize, member: usize, arguments: &[Type]) -> Type {
        let library = self.library();
        let d = &library.decls[decl];
        let span = d.members[member].of;
        if d.sort.is_code() {
            let env: Env = self.code_parameters(decl).into_iter().zip(arguments.iter().cloned()).collect();
            return self.code_types(d.file, span, &env).into_iter().next().unwrap_or(Type::Unknown);
        }
        let mut explicit: Vec<String> = Vec::new();
        let mut env: Env = Vec::new();
        for (name, is) in self.parameters(decl) {
            if is {
                explicit.push(name);
            } else {
                let open = self.fresh();
                env.push((name, open));
            }
        }
        let skip = explicit.len().saturating_sub(arguments.len());
        for (name, argument) in explicit.into_iter().skip(skip).zip(arguments) {
            env.push((name, argument.clone()));
        }
        let term = self.trees.term(d.file, span);
        self.eval(&term, d.file, &mut env)
    }

    /// The type of a constructor.
    pub fn constructor(&mut self, decl: usize, member: usize) -> Type {
        let library = self.library();
        let d = &library.decls[decl];
        if d.sort == Sort::Enum {
            let env: Env = self.code_parameters(decl).into_iter().map(|name| (name, self.fresh())).collect();
            let whole = Type::Named(Target::Decl(decl), env.iter().map(|e| e.1.clone()).collect());
            return self
                .code_types(d.file, d.members[member].of, &env)
                .into_iter()
                .rev()
                .fold(whole, |to, from| Type::Function(Box::new(from), Box::new(to), false));
        }
        let mut env: Env = Vec::new();
        for (name, _) in self.parameters(decl) {
            let open = self.fresh();
            env.push((name, open));
        }
        let term = self.trees.term(d.file, d.members[member].of);
        self.eval(&term, d.file, &mut env)
    }

    /// The type of a definition where `from` cites it: what sections they share is not applied.
    pub fn signature(&mut self, decl: usize, from: Option<usize>) -> Type {
        let d = &self.library().decls[decl];
        let term = self.trees.term(d.file, d.of);
        self.over_parameters(decl, from, Span { from: 0, to: 0 }, |store, env| store.eval(&term, d.file, env))
    }

    /// The type of a record or a data type as a function of its parameters.
    fn former(&mut self, decl: usize, from: Option<usize>) -> Type {
        let d = &self.library().decls[decl];
        if d.sort.is_code() {
            let over = self.code_parameters(decl).into_iter();
            return over.fold(Type::Universe, |to, _| Type::Function(Box::new(Type::Universe), Box::new(to), false));
        }
        self.over_parameters(decl, from, d.parameters, |_, _| Type::Universe)
    }

    /// A type over the sections that a declaration stands in and over its own parameters.
    fn over_parameters(&mut self, decl: usize, from: Option<usize>, own: Span, last: impl FnOnce(&mut Self, &mut Env) -> Type) -> Type {
        let library = self.library();
        let d = &library.decls[decl];
        let shared = match from.map(|f| &library.decls[f]) {
            Some(f) if f.file == d.file => f.sections.iter().zip(&d.sections).take_while(|(a, b)| a == b).count(),
            _ => 0,
        };
        let mut env: Env = Vec::new();
        let mut domains = Vec::new();
        let sections = d.sections.iter().map(|&s| library.files[d.file].sections[s]);
        for (n, span) in sections.chain([own]).enumerate() {
            for binder in self.trees.binders(d.file, span) {
                let of = match &binder.of {
                    Some(of) => self.eval(of, d.file, &mut env),
                    None => Type::Unknown,
                };
                if n >= shared {
                    domains.extend(binder.names.iter().map(|_| (of.clone(), binder.implicit)));
                }
                self.bind(&binder, &of, d.file, &mut env);
            }
        }
        let whole = last(self, &mut env);
        domains.into_iter().rev().fold(whole, |to, (from, implicit)| Type::Function(Box::new(from), Box::new(to), implicit))
    }

    /// The type that a name has.
    pub fn type_of(&mut self, target: Target, from: Option<usize>) -> Type {
        let library = self.library();
        match target {
            Target::Decl(d) if library.decls[d].sort == Sort::Definition => self.signature(d, from),
            Target::Decl(d) => self.former(d, from),
            Target::Member(d, m) => self.constructor(d, m),
            Target::Built(_) => Type::Unknown,
        }
    }

    fn library_type(&self, path: &str, name: &str) -> Type {
        let found = self.library().find(path, name);
        found.map_or(Type::Unknown, |t| Type::Named(t, Vec::new()))
    }

    /// A type of the code as definitions see it.
    pub fn code_type(&mut self, file: usize, span: Span) -> Type {
        self.code_types(file, span, &Env::new()).into_iter().next().unwrap_or(Type::Unknown)
    }

    /// The types in a row of code, as in a variant; brackets make a list. Those that the whole is over are in `env`.
    fn code_types(&mut self, file: usize, span: Span, env: &Env) -> Vec<Type> {
        let library = self.library();
        let source = &library.files[file];
        let (mut found, mut lists, mut at) = (Vec::new(), 0usize, span.from);
        while at < span.to {
            let word = source.word(at);
            at += 1;
            let of = match word {
                "[" => {
                    lists += 1;
                    continue;
                }
                ";" => {
                    at += 1;
                    continue;
                }
                "'" => {
                    at += 1;
                    continue;
                }
                "u8" | "u16" | "u32" | "u64" | "usize" => Type::Named(library.built("Prim.Native.Nat.ℕ"), Vec::new()),
                "i8" | "i16" | "i32" | "i64" | "isize" => self.library_type(PRELUDE, "ℤ"),
                "bool" => self.library_type(PRELUDE, "Bool"),
                _ if word.starts_with(char::is_uppercase) => {
                    let mut arguments = Vec::new();
                    if at < span.to && source.word(at) == "<" {
                        let end = source.behind_types(at);
                        arguments = self.code_types(file, Span { from: at + 1, to: end - 1 }, env);
                        at = end;
                    }
                    let known = env.iter().find(|e| e.0 == word).map(|e| e.1.clone());
                    let decl = || library.in_code(file, word)?.decl();
                    known.or_else(|| Some(Type::Named(Target::Decl(decl()?), arguments))).unwrap_or(Type::Unknown)
                }
                _ => continue,
            };
            let list = self.library_type(PRELUDE, "List");
            let wrapped = (0..lists).fold(of, |inner, _| match &list {
                Type::Named(t, _) => Type::Named(*t, vec![inner]),
                _ => Type::Unknown,
            });
            lists = 0;
            found.push(wrapped);
        }
        found
    }
}
