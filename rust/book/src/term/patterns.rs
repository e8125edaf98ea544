//! Patterns, and clauses, which begin with them.

use super::{Clause, Parser, Pattern, Term, STOPS};
use crate::lex::Kind;

impl Parser<'_> {
    /// A pattern: a constructor with arguments, or operators between them.
    pub(super) fn pattern(&mut self) -> Pattern {
        let (mut row, operators) = self.pattern_row();
        match (row.len(), operators.is_empty()) {
            (0, _) => Pattern::Other,
            (1, true) => row.pop().expect("one pattern"),
            (_, false) => Pattern::Infix(row, operators),
            _ => {
                let head = Box::new(row.remove(0));
                Pattern::Apply(head, row)
            }
        }
    }

    pub(super) fn pattern_row(&mut self) -> (Vec<Pattern>, Vec<usize>) {
        let (mut row, mut operators) = (Vec::new(), Vec::new());
        while self.at < self.end && !STOPS.contains(&self.here()) {
            if self.is_operator() {
                operators.push(self.at);
                self.at += 1;
            } else {
                row.push(self.pattern_atom());
            }
        }
        (row, operators)
    }

    pub(super) fn pattern_atom(&mut self) -> Pattern {
        let word = self.here();
        if word == "(" && self.opens_binder() {
            let binder = self.binder();
            return Pattern::Typed(binder.names, Box::new(binder.of.unwrap_or(Term::Literal)));
        }
        if word == "(" {
            let end = self.closing(self.at) - 1;
            self.at += 1;
            let parts = self.inside(end, |p| {
                let mut parts = Vec::new();
                while p.at < p.end {
                    parts.push(p.pattern());
                    if !p.eat(",") {
                        break;
                    }
                }
                parts
            });
            self.at += 1;
            return match parts.len() {
                1 => parts.into_iter().next().expect("one part"),
                _ => Pattern::Tuple(parts),
            };
        }
        if word == "{" {
            let end = self.closing(self.at) - 1;
            self.at += 1;
            self.at += if self.word(self.at + 1) == "=" { 2 } else { 0 };
            let inner = self.inside(end, |p| p.pattern());
            self.at += 1;
            return Pattern::Implicit(Box::new(inner));
        }
        let named = self.words[self.at].kind == Kind::Name && word != "_";
        if !named {
            self.at += 1;
            return Pattern::Other;
        }
        match self.path() {
            Term::Path(names) => Pattern::Path(names),
            Term::Name(k) => Pattern::Name(k),
            _ => Pattern::Other,
        }
    }

    /// A clause: patterns, and what stands behind `=`; `where` and what follows is left unread.
    pub fn clause(&mut self) -> Clause {
        let (left, operators) = self.pattern_row();
        let right = if self.eat("=") { Some(self.term()) } else { None };
        Clause { left, operators, right }
    }
}
