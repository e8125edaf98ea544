//! Terms that begin with a word of their own: functions, `let`, records, cases.

use super::{Parser, Term};

impl Parser<'_> {
    pub(super) fn lambda(&mut self) -> Term {
        self.at += 1;
        let mut patterns = Vec::new();
        while self.at < self.end && self.here() != "." {
            patterns.push(self.pattern_atom());
        }
        self.eat(".");
        Term::Lambda(patterns, Box::new(self.term()))
    }

    pub(super) fn binding(&mut self) -> Term {
        self.at += 1;
        let pattern = self.pattern_atom();
        let of = if self.eat(":") { Some(Box::new(self.term())) } else { None };
        self.eat("=");
        let value = Box::new(self.term());
        self.eat("in");
        Term::Let(pattern, of, value, Box::new(self.term()))
    }

    pub(super) fn record(&mut self) -> Term {
        self.at += 1;
        if self.here() != "{" {
            return Term::Literal;
        }
        let end = self.closing(self.at) - 1;
        self.at += 1;
        let fields = self.inside(end, |p| {
            let mut fields = Vec::new();
            while p.at < p.end {
                let name = p.at;
                p.at += 1;
                if !p.eat("=") {
                    p.eat(":");
                }
                let value = p.term();
                fields.push((name, value, p.at));
                p.eat(";");
            }
            fields
        });
        self.at += 1;
        Term::Record(fields)
    }

    /// `elim x as motive [ p ↦ e | .. ]`
    pub(super) fn elim(&mut self) -> Term {
        self.at += 1;
        let subject = self.atom().unwrap_or(Term::Literal);
        let motive = if self.eat("as") { self.atom().map(Box::new) } else { None };
        let mut cases = Vec::new();
        if self.eat("[") {
            while self.at < self.end && !self.eat("]") {
                let pattern = self.pattern();
                self.eat("↦");
                cases.push((pattern, self.term()));
                self.eat("|");
            }
        }
        Term::Elim(Box::new(subject), motive, cases)
    }
}
