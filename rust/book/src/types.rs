//! Types, as far as a field needs them: enough to tell of which record a `.field` is.

mod declared;

use crate::lex;
use crate::names::{Library, Target};
use crate::source::Sort;
use crate::term::{Argument, Binder, Former, Operand, Parser, Pattern, Span, Term};
use std::cell::RefCell;
use std::collections::HashMap;
use std::rc::Rc;

/// A type, or that nothing is known of it.
#[derive(Clone, Debug, PartialEq)]
pub enum Type {
    Unknown,
    /// to be found out
    Open(usize),
    Named(Target, Vec<Type>),
    /// from, to, and whether the argument is implicit
    Function(Box<Type>, Box<Type>, bool),
    Product(Vec<Type>),
    Universe,
}

/// What a name in a type stands for.
pub type Env = Vec<(String, Type)>;

/// The terms of all files, each read once.
pub struct Trees<'a> {
    pub library: &'a Library,
    terms: RefCell<HashMap<(usize, usize, usize), Rc<Term>>>,
}

impl<'a> Trees<'a> {
    pub fn new(library: &'a Library) -> Self {
        Trees { library, terms: RefCell::new(HashMap::new()) }
    }

    /// Reads words of a file with the operators that stand in it.
    pub fn parse<T>(&self, file: usize, span: Span, read: impl FnOnce(&mut Parser) -> T) -> T {
        let scope = self.library.scope(file);
        let source = &self.library.files[file];
        let operator = |word: &str| scope.parts.contains_key(word);
        let mut parser = Parser { text: &source.text, words: &source.words, at: span.from, end: span.to, operator: &operator };
        read(&mut parser)
    }

    /// The term that some words of a file are.
    pub fn term(&self, file: usize, span: Span) -> Rc<Term> {
        let key = (file, span.from, span.to);
        if let Some(term) = self.terms.borrow().get(&key) {
            return term.clone();
        }
        let term = Rc::new(self.parse(file, span, |p| p.term()));
        self.terms.borrow_mut().insert(key, term.clone());
        term
    }

    /// The binders in some words, as of a section or of a record's parameters.
    pub fn binders(&self, file: usize, span: Span) -> Vec<Binder> {
        if span.from >= span.to {
            return Vec::new();
        }
        match &*self.term(file, span) {
            Term::Binding(binders, _, _) => binders.clone(),
            _ => Vec::new(),
        }
    }
}

/// Types that are found out while a declaration is walked through.
pub struct Store<'a> {
    pub trees: &'a Trees<'a>,
    open: Vec<Option<Type>>,
}

impl<'a> Store<'a> {
    pub fn new(trees: &'a Trees<'a>) -> Self {
        Store { trees, open: Vec::new() }
    }

    fn library(&self) -> &'a Library {
        self.trees.library
    }

    pub fn fresh(&mut self) -> Type {
        self.open.push(None);
        Type::Open(self.open.len() - 1)
    }

    /// What is known of a type by now.
    pub fn seen(&self, of: &Type) -> Type {
        let mut of = of.clone();
        while let Type::Open(k) = of {
            match &self.open[k] {
                Some(known) => of = known.clone(),
                None => break,
            }
        }
        of
    }

    /// Whether a type yet to be found out stands in another.
    fn occurs(&self, open: usize, of: &Type) -> bool {
        match self.seen(of) {
            Type::Open(k) => k == open,
            Type::Named(_, parts) | Type::Product(parts) => parts.iter().any(|p| self.occurs(open, p)),
            Type::Function(from, to, _) => self.occurs(open, &from) || self.occurs(open, &to),
            Type::Unknown | Type::Universe => false,
        }
    }

    /// Makes two types the same where they can be.
    pub fn unify(&mut self, a: &Type, b: &Type) {
        let (a, b) = (self.seen(a), self.seen(b));
        match (&a, &b) {
            (Type::Open(x), Type::Open(y)) if x == y => {}
            (Type::Open(_), Type::Unknown) | (Type::Unknown, Type::Open(_)) => {}
            (Type::Open(x), known) | (known, Type::Open(x)) if !self.occurs(*x, known) => self.open[*x] = Some(known.clone()),
            (Type::Named(x, xs), Type::Named(y, ys)) if x == y => {
                for (p, q) in xs.iter().zip(ys) {
                    self.unify(p, q);
                }
            }
            (Type::Function(p, q, _), Type::Function(r, s, _)) => {
                self.unify(p, r);
                self.unify(q, s);
            }
            (Type::Product(xs), Type::Product(ys)) => {
                for (p, q) in xs.iter().zip(ys) {
                    self.unify(p, q);
                }
            }
            (Type::Named(..), _) | (_, Type::Named(..)) => {
                let (x, y) = (self.unfolded(&a), self.unfolded(&b));
                if x != a || y != b {
                    self.unify(&x, &y);
                }
            }
            _ => {}
        }
    }

    /// A type with the definitions at its head opened: `Plan` is a list of Booleans.
    pub fn unfolded(&mut self, of: &Type) -> Type {
        let mut of = self.seen(of);
        for _ in 0..8 {
            let Type::Named(Target::Decl(d), arguments) = &of else {
                break;
            };
            let decl = &self.library().decls[*d];
            if decl.sort != Sort::Definition || decl.clauses.len() != 1 {
                break;
            }
            let (file, span) = (decl.file, decl.clauses[0]);
            let clause = self.trees.parse(file, span, |p| p.clause());
            let (Some(right), true) = (clause.right, clause.operators.is_empty()) else {
                break;
            };
            let mut env: Env = Vec::new();
            for (pattern, argument) in clause.left.iter().skip(1).zip(arguments) {
                if let Pattern::Name(k) = pattern {
                    let name = self.library().files[file].word(*k);
                    env.push((name.to_string(), argument.clone()));
                }
            }
            let opened = self.eval(&right, file, &mut env);
            if opened == Type::Unknown {
                break;
            }
            of = self.seen(&opened);
        }
        of
    }

    /// The type that a term of a file says.
    pub fn eval(&mut self, term: &Term, file: usize, env: &mut Env) -> Type {
        match term {
            Term::Literal => Type::Universe,
            Term::Name(k) => self.named(*k, file, env),
            Term::Path(names) => self.path(names, file),
            Term::Apply(head, arguments) => {
                let head = self.eval(head, file, env);
                let Type::Named(target, mut all) = head else {
                    return if head == Type::Universe { head } else { Type::Unknown };
                };
                for argument in arguments {
                    if let Argument::Explicit(inner) = argument {
                        all.push(self.eval_argument(inner, file, env));
                    }
                }
                Type::Named(target, all)
            }
            Term::Infix(row) => self.row(row, file, env),
            Term::Binding(binders, body, former) => self.binding(binders, body, *former, file, env),
            Term::Let(_, _, _, body) => self.eval(body, file, env),
            _ => Type::Unknown,
        }
    }

    /// An argument of a type: a type again, or a value, of which nothing is known.
    fn eval_argument(&mut self, term: &Term, file: usize, env: &mut Env) -> Type {
        match self.eval(term, file, env) {
            Type::Universe => Type::Unknown,
            known => known,
        }
    }

    fn named(&mut self, k: usize, file: usize, env: &Env) -> Type {
        let library = self.library();
        let word = library.files[file].word(k);
        if let Some((_, known)) = env.iter().rev().find(|(n, _)| n == word) {
            return known.clone();
        }
        match library.scope(file).names.get(word) {
            Some(&target) => Type::Named(target, Vec::new()),
            None => Type::Unknown,
        }
    }

    fn path(&mut self, names: &[usize], file: usize) -> Type {
        let library = self.library();
        let source = &library.files[file];
        let [module, name] = names else {
            return Type::Unknown;
        };
        let scope = library.scope(file);
        let found = scope.modules.get(source.word(*module)).and_then(|path| library.find(path, source.word(*name)));
        found.map_or(Type::Unknown, |t| Type::Named(t, Vec::new()))
    }

    fn row(&mut self, row: &[Operand], file: usize, env: &mut Env) -> Type {
        let library = self.library();
        let times = |o: &Operand| matches!(o, Operand::Operator(k) if library.files[file].word(*k) == "×");
        if row.iter().any(times) {
            let parts = row.split(times);
            let parts: Vec<Type> = parts
                .map(|part| match part {
                    [Operand::Term(t)] => self.eval(t, file, env),
                    _ => Type::Unknown,
                })
                .collect();
            return Type::Product(parts);
        }
        Type::Unknown
    }

    fn binding(&mut self, binders: &[Binder], body: &Term, former: Former, file: usize, env: &mut Env) -> Type {
        let before = env.len();
        let mut domains = Vec::new();
        for binder in binders {
            let of = match &binder.of {
                Some(of) => self.eval(of, file, env),
                None => Type::Unknown,
            };
            domains.extend((0..binder.names.len().max(1)).map(|_| (of.clone(), binder.implicit)));
            self.bind(binder, &of, file, env);
        }
        let last = self.eval(body, file, env);
        env.truncate(before);
        if former == Former::Product {
            let mut parts: Vec<Type> = domains.into_iter().map(|d| d.0).collect();
            match last {
                Type::Product(more) => parts.extend(more),
                one => parts.push(one),
            }
            return Type::Product(parts);
        }
        domains.into_iter().rev().fold(last, |to, (from, implicit)| Type::Function(Box::new(from), Box::new(to), implicit))
    }

    /// Binds the names of a binder: one that is a type stands for a type yet to be found out.
    pub fn bind(&mut self, binder: &Binder, of: &Type, file: usize, env: &mut Env) {
        for &k in &binder.names {
            let name = self.library().files[file].word(k).to_string();
            let stands = match of {
                Type::Universe => self.fresh(),
                _ => Type::Unknown,
            };
            env.push((name, stands));
        }
    }

    /// The record that a type is, with its arguments.
    pub fn record(&mut self, of: &Type) -> Option<(usize, Vec<Type>)> {
        match self.unfolded(of) {
            Type::Named(Target::Decl(d), arguments) => {
                let sort = self.library().decls[d].sort;
                matches!(sort, Sort::Record | Sort::Struct).then_some((d, arguments))
            }
            _ => None,
        }
    }

    /// Whether an operator makes a type, as `≡` does: it reaches further than one that makes a value.
    pub fn makes_type(&mut self, operator: Target) -> bool {
        let mut of = self.type_of(operator, None);
        while let Type::Function(_, to, _) = of {
            of = *to;
        }
        let name = match operator {
            Target::Built(k) => self.library().built_name(k),
            _ => String::new(),
        };
        of == Type::Universe || ["◌≤◌", "◌<◌"].iter().any(|n| name.ends_with(n))
    }

    /// Whether a name is an operator that leans to the left.
    pub fn leftward(&self, operator: Target) -> bool {
        let library = self.library();
        operator.decl().is_some_and(|d| {
            let decl = &library.decls[d];
            library.files[decl.file].leftward.contains(&decl.name)
        })
    }
}

/// The parts of a name that fits an operator's word.
pub fn operator_arity(name: &str) -> usize {
    name.matches('◌').count().max(lex::parts(name).len())
}
