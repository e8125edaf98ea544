//! Terms: checked against the type that is expected of them, as far as it is known, and told with the type that they have.

use super::{Link, Pending, Walk};
use crate::names::{Target, CONTRACT_WORDS};
use crate::source::Sort;
use crate::term::{Argument, Operand, Pattern, Span, Term};
use crate::types::Type;

/// What a call returns, in its contract.
const RESULT: &str = "result";

/// Something that an operator or a function is applied to.
enum Given<'t> {
    Term(&'t Term),
    Row(&'t [Operand]),
}

impl Walk<'_> {
    fn name(&mut self, k: usize) -> Type {
        let word = self.word(k);
        if let Some(local) = self.local(word) {
            let of = local.of.clone();
            self.link(k, Link::Bound);
            return of;
        }
        if self.contract {
            if let Some(n) = CONTRACT_WORDS.iter().position(|w| *w == word) {
                self.link(k, Link::Contract(n));
                return if word == RESULT { self.result.clone() } else { Type::Unknown };
            }
        }
        if let Some(&target) = self.scope.names.get(word) {
            self.link(k, Link::To(target));
            return self.store.type_of(target, self.decl);
        }
        match self.operator(k) {
            Some(target) => self.store.type_of(target, self.decl),
            None => {
                self.link(k, Link::Lost);
                Type::Unknown
            }
        }
    }

    /// Checks a term against a type, links its names, and tells its type.
    pub(super) fn check(&mut self, term: &Term, expected: &Type) -> Type {
        match term {
            Term::Literal => Type::Unknown,
            Term::Name(k) => self.name(*k),
            Term::Path(names) => self.path(names),
            Term::Apply(head, arguments) => self.apply_term(head, arguments, expected),
            Term::Field(of, k) => {
                let of = self.check(of, &Type::Unknown);
                self.field(*k, &of)
            }
            Term::Infix(row) => self.row(row, expected),
            Term::Lambda(patterns, body) => self.lambda(patterns, body, expected),
            Term::Let(pattern, of, value, body) => self.binding(pattern, of.as_deref(), value, body, expected),
            Term::Binding(binders, body, _) => {
                let before = self.locals.len();
                self.binders(binders);
                self.check(body, &Type::Universe);
                self.locals.truncate(before);
                Type::Universe
            }
            Term::Tuple(parts) => self.tuple(parts, expected),
            Term::Record(fields) => self.record(fields, expected),
            Term::Elim(subject, motive, cases) => {
                let of = self.check(subject, &Type::Unknown);
                if let Some(motive) = motive {
                    self.check(motive, &Type::Unknown);
                }
                for (pattern, right) in cases {
                    let before = self.locals.len();
                    self.bind(pattern, &of);
                    self.check(right, expected);
                    self.locals.truncate(before);
                }
                expected.clone()
            }
        }
    }

    fn path(&mut self, names: &[usize]) -> Type {
        let first = self.word(names[0]);
        let is_value = self.local(first).is_some()
            || (self.contract && first == RESULT)
            || (!self.scope.modules.contains_key(first)
                && matches!(self.scope.names.get(first), Some(Target::Decl(d)) if self.library.decls[*d].sort == Sort::Definition));
        if is_value {
            let mut of = self.name(names[0]);
            for &k in &names[1..] {
                of = self.field(k, &of);
            }
            return of;
        }
        let mut of = match self.qualified(names) {
            Some(target) => self.store.type_of(target, self.decl),
            None => Type::Unknown,
        };
        for &k in &names[2..] {
            of = self.field(k, &of);
        }
        of
    }

    fn apply_term(&mut self, head: &Term, arguments: &[Argument], expected: &Type) -> Type {
        let function = self.check(head, &Type::Unknown);
        let mut given = Vec::new();
        for argument in arguments {
            match argument {
                Argument::Explicit(term) => given.push(Given::Term(term)),
                Argument::Implicit(term) => {
                    self.check(term, &Type::Unknown);
                }
            }
        }
        self.apply(function, &given, expected)
    }

    /// What is expected of the result is known first; functions and records given as arguments wait until the others have told what they can.
    fn apply(&mut self, mut function: Type, given: &[Given], expected: &Type) -> Type {
        let mut domains = Vec::new();
        for _ in given {
            function = self.store.unfolded(&function);
            while let Type::Function(_, to, true) = function {
                function = self.store.unfolded(&to);
            }
            let (from, to) = match function {
                Type::Function(from, to, _) => (*from, *to),
                _ => (Type::Unknown, Type::Unknown),
            };
            domains.push(from);
            function = to;
        }
        self.store.unify(&function, expected);
        let waits = |g: &Given| matches!(g, Given::Term(Term::Lambda(..) | Term::Record(_)));
        for waiting in [false, true] {
            for (argument, from) in given.iter().zip(&domains).filter(|(g, _)| waits(g) == waiting) {
                self.check_given(argument, from);
            }
        }
        function
    }

    fn check_given(&mut self, given: &Given, expected: &Type) {
        let of = match given {
            Given::Term(term) => self.check(term, expected),
            Given::Row(row) => self.row(row, expected),
        };
        self.store.unify(&of, expected);
    }

    /// A row of operators: a product first, then what makes a type, then from the right, or from the left where an operator leans so.
    fn row(&mut self, row: &[Operand], expected: &Type) -> Type {
        if let [Operand::Term(term)] = row {
            return self.check(term, expected);
        }
        let times = |walk: &Self, o: &Operand| matches!(o, Operand::Operator(k) if walk.word(*k) == "×");
        if let Some(n) = row.iter().position(|o| times(self, o)) {
            let left = self.part(&row[..n]);
            let right = self.part(&row[n + 1..]);
            return match right {
                Type::Product(_) | Type::Unknown => Type::Universe,
                _ => left,
            };
        }
        let mut chosen: Option<(usize, Target)> = None;
        for (n, operand) in row.iter().enumerate() {
            let Operand::Operator(k) = operand else {
                continue;
            };
            let Some(target) = self.operator(*k) else {
                continue;
            };
            let makes = self.store.makes_type(target);
            if makes {
                chosen = Some((n, target));
                break;
            }
            if chosen.is_none() || self.store.leftward(target) {
                chosen = Some((n, target));
            }
        }
        let Some((n, target)) = chosen else {
            for operand in row {
                if let Operand::Term(term) = operand {
                    self.check(term, &Type::Unknown);
                }
            }
            return Type::Unknown;
        };
        let of = self.store.type_of(target, self.decl);
        let sides: Vec<Given> = [&row[..n], &row[n + 1..]]
            .into_iter()
            .filter(|side| !side.is_empty())
            .map(|side| match side {
                [Operand::Term(term)] => Given::Term(term),
                _ => Given::Row(side),
            })
            .collect();
        self.apply(of, &sides, expected)
    }

    fn part(&mut self, row: &[Operand]) -> Type {
        if row.is_empty() {
            return Type::Unknown;
        }
        self.row(row, &Type::Unknown)
    }

    fn lambda(&mut self, patterns: &[Pattern], body: &Term, expected: &Type) -> Type {
        let before = self.locals.len();
        let mut rest = self.store.unfolded(expected);
        let mut domains = Vec::new();
        for pattern in patterns {
            while let Type::Function(_, to, true) = rest {
                rest = self.store.unfolded(&to);
            }
            let from = match rest {
                Type::Function(from, to, _) => {
                    rest = self.store.unfolded(&to);
                    *from
                }
                _ => {
                    rest = Type::Unknown;
                    self.store.fresh()
                }
            };
            self.bind(pattern, &from);
            domains.push(from);
        }
        let last = self.check(body, &rest);
        self.store.unify(&last, &rest);
        self.locals.truncate(before);
        domains.into_iter().rev().fold(last, |to, from| Type::Function(Box::new(from), Box::new(to), false))
    }

    fn binding(&mut self, pattern: &Pattern, of: Option<&Term>, value: &Term, body: &Term, expected: &Type) -> Type {
        let known = match of {
            Some(of) => {
                self.check(of, &Type::Universe);
                self.eval(of)
            }
            None => Type::Unknown,
        };
        let told = self.check(value, &known);
        let before = self.locals.len();
        self.bind(pattern, if of.is_some() { &known } else { &told });
        let last = self.check(body, expected);
        self.locals.truncate(before);
        last
    }

    fn tuple(&mut self, parts: &[Term], expected: &Type) -> Type {
        let known = match self.store.unfolded(expected) {
            Type::Product(known) => known,
            _ => Vec::new(),
        };
        let mut found = Vec::new();
        for (n, part) in parts.iter().enumerate() {
            let of = known.get(n).cloned().unwrap_or(Type::Unknown);
            let told = self.check(part, &of);
            self.store.unify(&told, &of);
            found.push(if told == Type::Unknown { of } else { told });
        }
        Type::Product(found)
    }

    fn record(&mut self, fields: &[(usize, Term, usize)], expected: &Type) -> Type {
        let known = self.store.record(expected);
        for (k, value, to) in fields {
            let member = known.as_ref().and_then(|(d, _)| self.library.member(*d, self.word(*k)));
            match (&known, member) {
                (Some((d, arguments)), Some(m)) => {
                    let target = Target::Member(*d, m);
                    self.link(*k, Link::To(target));
                    self.links.patterns.insert(*k);
                    self.links.built.insert(*d);
                    self.links.cases.push((Span { from: *k, to: *to }, vec![target]));
                    let of = self.store.field(*d, m, arguments);
                    let told = self.check(value, &of);
                    self.store.unify(&told, &of);
                }
                _ => {
                    self.link(*k, Link::Untold);
                    self.check(value, &Type::Unknown);
                }
            }
        }
        match known {
            Some((d, arguments)) => Type::Named(Target::Decl(d), arguments),
            None => Type::Unknown,
        }
    }

    fn field(&mut self, k: usize, of: &Type) -> Type {
        let word = self.word(k);
        if let Ok(n) = word.parse::<usize>() {
            return match self.store.unfolded(of) {
                Type::Product(parts) => parts.get(n).cloned().unwrap_or(Type::Unknown),
                _ => Type::Unknown,
            };
        }
        if let Some(found) = self.known_field(k, of) {
            return found;
        }
        if self.contract {
            if let Some(n) = CONTRACT_WORDS.iter().position(|w| *w == word) {
                self.link(k, Link::Contract(n));
                return of.clone();
            }
        }
        let result = self.store.fresh();
        self.pending.push(Pending { word: k, of: of.clone(), result: result.clone() });
        result
    }

    fn known_field(&mut self, k: usize, of: &Type) -> Option<Type> {
        let (decl, arguments) = self.store.record(of)?;
        let member = self.library.member(decl, self.word(k))?;
        self.link(k, Link::To(Target::Member(decl, member)));
        Some(self.store.field(decl, member, &arguments))
    }

    /// Fields whose record became known later; of the others it cannot be told.
    pub(super) fn settle(&mut self) {
        loop {
            let waiting = std::mem::take(&mut self.pending);
            let before = waiting.len();
            for p in waiting {
                match self.known_field(p.word, &p.of) {
                    Some(found) => self.store.unify(&p.result, &found),
                    None => self.pending.push(p),
                }
            }
            if self.pending.len() == before {
                break;
            }
        }
        for p in std::mem::take(&mut self.pending) {
            self.link(p.word, Link::Untold);
        }
    }
}
