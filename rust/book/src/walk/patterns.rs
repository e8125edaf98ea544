//! Patterns: a constructor is a name, everything else is bound, with the type that its place has.

use super::{Link, Walk};
use crate::names::Target;
use crate::term::{Binder, Pattern};
use crate::types::{operator_arity, Type};

impl Walk<'_> {
    /// The constructor that a bare name in a pattern is.
    pub(super) fn constructor(&self, name: &str) -> Option<Target> {
        let target = *self.scope.names.get(name)?;
        match target {
            Target::Member(..) => Some(target),
            Target::Built(k) => {
                let built = self.library.built_name(k);
                let last = built.rsplit('.').next().unwrap_or("");
                ["yes", "no", "tt", "zero", "suc"].contains(&last).then_some(target)
            }
            Target::Decl(_) => None,
        }
    }

    pub(super) fn bind(&mut self, pattern: &Pattern, of: &Type) {
        match pattern {
            Pattern::Name(k) => {
                let word = self.word(*k).to_string();
                match self.constructor(&word) {
                    Some(target) => {
                        self.link(*k, Link::To(target));
                        self.links.patterns.insert(*k);
                        self.matched.push(target);
                    }
                    None => {
                        self.link(*k, Link::Bound);
                        self.push(&word, of.clone());
                    }
                }
            }
            Pattern::Path(_) => self.bind_apply(pattern, &[], of),
            Pattern::Apply(head, arguments) => self.bind_apply(head, arguments, of),
            Pattern::Infix(patterns, operators) => self.bind_infix(patterns, operators, of),
            Pattern::Tuple(parts) => {
                let known = match self.store.unfolded(of) {
                    Type::Product(parts) => parts,
                    _ => Vec::new(),
                };
                for (n, part) in parts.iter().enumerate() {
                    let of = match known.get(n) {
                        Some(_) if n + 1 == parts.len() && known.len() > parts.len() => Type::Product(known[n..].to_vec()),
                        Some(of) => of.clone(),
                        None => Type::Unknown,
                    };
                    self.bind(part, &of);
                }
            }
            Pattern::Typed(names, term) => {
                let binder = Binder { names: names.clone(), of: Some((**term).clone()), implicit: false };
                self.binders(&[binder]);
            }
            Pattern::Implicit(inner) => self.bind(inner, &Type::Unknown),
            Pattern::Other => {}
        }
    }

    pub(super) fn bind_apply(&mut self, head: &Pattern, arguments: &[Pattern], of: &Type) {
        let target = match head {
            Pattern::Name(k) => {
                let found = self.constructor(self.word(*k));
                self.link(*k, found.map_or(Link::Lost, Link::To));
                self.links.patterns.insert(*k);
                found
            }
            Pattern::Path(names) => {
                self.links.patterns.extend(names);
                self.qualified(names)
            }
            _ => None,
        };
        self.matched.extend(target);
        let mut rest = target.map_or(Type::Unknown, |t| self.store.type_of(t, self.decl));
        let mut inner = Vec::new();
        for argument in arguments {
            match rest {
                Type::Function(from, to, _) => {
                    inner.push((argument, *from));
                    rest = *to;
                }
                _ => {
                    inner.push((argument, Type::Unknown));
                    rest = Type::Unknown;
                }
            }
        }
        self.store.unify(&rest, of);
        for (argument, of) in inner {
            self.bind(argument, &of);
        }
    }

    pub(super) fn bind_infix(&mut self, patterns: &[Pattern], operators: &[usize], of: &Type) {
        let target = operators.first().and_then(|&k| self.operator(k));
        self.links.patterns.extend(operators);
        for &k in operators.iter().skip(1) {
            self.operator(k);
        }
        self.matched.extend(target);
        let mut rest = target.map_or(Type::Unknown, |t| self.store.type_of(t, self.decl));
        let mut known = Vec::new();
        while let Type::Function(from, to, _) = rest {
            known.push(*from);
            rest = *to;
        }
        self.store.unify(&rest, of);
        for (n, pattern) in patterns.iter().enumerate() {
            let last = n + 1 == patterns.len();
            let of = match (last, known.len()) {
                (true, 1..) => known[known.len() - 1].clone(),
                (false, 1..) => known[0].clone(),
                _ => Type::Unknown,
            };
            self.bind(pattern, &of);
        }
    }

    /// The operator that a word is a part of.
    pub(super) fn operator(&mut self, k: usize) -> Option<Target> {
        let word = self.word(k);
        let names = self.scope.parts.get(word)?.clone();
        let best = names.iter().min_by_key(|n| (operator_arity(n).abs_diff(2), n.len()))?;
        let target = *self.scope.names.get(best)?;
        self.link(k, Link::To(target));
        Some(target)
    }

    /// `a.b`: a name of a module, a member of a type, or a field.
    pub(super) fn qualified(&mut self, names: &[usize]) -> Option<Target> {
        let (first, second) = (self.word(names[0]), self.word(names[1]));
        let by_module = self.scope.modules.get(first).cloned();
        let by_type = || {
            let decl = self.scope.names.get(first)?.decl()?;
            self.library.member(decl, second).map(|m| Target::Member(decl, m))
        };
        let found = by_type().or_else(|| self.library.find(&by_module?, second));
        let link = found.map_or(Link::Lost, Link::To);
        self.link(names[0], link);
        self.link(names[1], link);
        found
    }
}
