//! Terms of the checker's language: enough of the grammar to know which word is bound where, what is applied to what, and whose field is taken.
//!
//! Operators stay a flat row of operands; which part of which operator a word is, the caller tells.

mod forms;
mod patterns;

use crate::lex::{Kind, Word};

/// Words `from..to` of a file.
#[derive(Clone, Copy, Debug, PartialEq, Eq)]
pub struct Span {
    pub from: usize,
    pub to: usize,
}

/// A term; numbers are places of words.
#[derive(Debug, Clone)]
pub enum Term {
    Name(usize),
    /// `a.b.c`, written without spaces
    Path(Vec<usize>),
    /// a number, a text, a hole, a universe
    Literal,
    Apply(Box<Term>, Vec<Argument>),
    Field(Box<Term>, usize),
    Infix(Vec<Operand>),
    Lambda(Vec<Pattern>, Box<Term>),
    /// `let p : type = value in body`
    Let(Pattern, Option<Box<Term>>, Box<Term>, Box<Term>),
    /// `(x : A) → B`, `A → B`; a product too, told by the flag
    Binding(Vec<Binder>, Box<Term>, Former),
    Tuple(Vec<Term>),
    /// a field's name, its value, and where the value ends
    Record(Vec<(usize, Term, usize)>),
    Elim(Box<Term>, Option<Box<Term>>, Vec<(Pattern, Term)>),
}

/// A function type or a product.
#[derive(Debug, Clone, Copy, PartialEq, Eq)]
pub enum Former {
    Arrow,
    Product,
}

/// An argument: explicit, or in braces, there perhaps by name.
#[derive(Debug, Clone)]
pub enum Argument {
    Explicit(Term),
    Implicit(Term),
}

/// A part of a row of operators.
#[derive(Debug, Clone)]
pub enum Operand {
    Term(Term),
    Operator(usize),
}

/// Names bound to one type.
#[derive(Debug, Clone)]
pub struct Binder {
    pub names: Vec<usize>,
    pub of: Option<Term>,
    pub implicit: bool,
}

/// A pattern of a clause, a function or a `let`.
#[derive(Debug, Clone)]
pub enum Pattern {
    Name(usize),
    Path(Vec<usize>),
    Apply(Box<Pattern>, Vec<Pattern>),
    Infix(Vec<Pattern>, Vec<usize>),
    Tuple(Vec<Pattern>),
    Typed(Vec<usize>, Box<Term>),
    Implicit(Box<Pattern>),
    Other,
}

/// The left side of a clause with its right side.
#[derive(Debug, Clone)]
pub struct Clause {
    pub left: Vec<Pattern>,
    pub operators: Vec<usize>,
    pub right: Option<Term>,
}

/// Reads terms from the words of a file.
pub struct Parser<'a> {
    pub text: &'a str,
    pub words: &'a [Word],
    pub at: usize,
    pub end: usize,
    /// whether a word is a part of an operator in scope
    pub operator: &'a dyn Fn(&str) -> bool,
}

/// Words that end an application.
const STOPS: &[&str] = &[")", "}", ",", ";", "→", "=", "|", "↦", "]", "⌝", "in", "as", "where", ":", "←"];

impl<'a> Parser<'a> {
    fn word(&self, at: usize) -> &'a str {
        if at < self.end {
            self.words[at].of(self.text)
        } else {
            ""
        }
    }

    fn here(&self) -> &'a str {
        self.word(self.at)
    }

    fn eat(&mut self, word: &str) -> bool {
        let there = self.at < self.end && self.here() == word;
        self.at += usize::from(there);
        there
    }

    fn is_operator(&self) -> bool {
        let word = self.here();
        self.at < self.end && self.words[self.at].kind == Kind::Name && (word == "×" || (self.operator)(word))
    }

    /// The place behind the bracket that closes the one at `open`.
    fn closing(&self, open: usize) -> usize {
        let mut depth = 0usize;
        for k in open..self.end {
            match self.word(k) {
                "(" | "{" => depth += 1,
                ")" | "}" => depth -= 1,
                _ => {}
            }
            if depth == 0 {
                return k + 1;
            }
        }
        self.end
    }

    /// Whether the bracket here opens a binder: names, a colon, a type.
    fn opens_binder(&self) -> bool {
        let mut k = self.at + 1;
        while k < self.end && self.words[k].kind == Kind::Name && !STOPS.contains(&self.word(k)) {
            k += 1;
        }
        k > self.at + 1 && self.word(k) == ":"
    }

    /// A term, as far as it goes.
    pub fn term(&mut self) -> Term {
        let mut binders = Vec::new();
        while matches!(self.here(), "(" | "{") && self.opens_binder() {
            binders.push(self.binder());
        }
        if !binders.is_empty() {
            let former = if self.eat("×") {
                Former::Product
            } else {
                self.eat("→");
                Former::Arrow
            };
            return Term::Binding(binders, Box::new(self.term()), former);
        }
        if self.here() == "∀" {
            self.at += 1;
            return self.term();
        }
        let left = self.infix();
        if self.eat("→") {
            let binder = Binder { names: Vec::new(), of: Some(left), implicit: false };
            return Term::Binding(vec![binder], Box::new(self.term()), Former::Arrow);
        }
        left
    }

    fn binder(&mut self) -> Binder {
        let implicit = self.here() == "{";
        let end = self.closing(self.at) - 1;
        self.at += 1;
        let mut names = Vec::new();
        while self.here() != ":" {
            names.push(self.at);
            self.at += 1;
        }
        self.at += 1;
        let of = Some(self.inside(end, |p| p.term()));
        self.at += 1;
        Binder { names, of, implicit }
    }

    /// Reads up to `end` only, and goes on from there.
    fn inside<T>(&mut self, end: usize, read: impl FnOnce(&mut Self) -> T) -> T {
        let outer = self.end;
        self.end = end.min(outer);
        let got = read(self);
        self.at = self.end;
        self.end = outer;
        got
    }

    /// A row of applications and operators.
    fn infix(&mut self) -> Term {
        let mut row = Vec::new();
        loop {
            if self.is_operator() {
                row.push(Operand::Operator(self.at));
                self.at += 1;
                if matches!(self.here(), "(" | "{") && self.opens_binder() {
                    row.push(Operand::Term(self.term()));
                    break;
                }
                continue;
            }
            if self.at >= self.end || STOPS.contains(&self.here()) {
                break;
            }
            let before = self.at;
            row.push(Operand::Term(self.application()));
            if self.at == before {
                self.at += 1;
            }
        }
        match row.len() {
            1 => match row.pop() {
                Some(Operand::Term(t)) => t,
                Some(Operand::Operator(k)) => Term::Name(k),
                None => Term::Literal,
            },
            0 => Term::Literal,
            _ => Term::Infix(row),
        }
    }

    fn application(&mut self) -> Term {
        let Some(head) = self.atom() else {
            return Term::Literal;
        };
        let mut arguments: Vec<Argument> = Vec::new();
        loop {
            if self.here() == "{" {
                arguments.push(self.braced());
            } else if self.is_operator() || self.at >= self.end || STOPS.contains(&self.here()) {
                break;
            } else if let Some(argument) = self.atom() {
                arguments.push(Argument::Explicit(argument));
            } else {
                break;
            }
        }
        if arguments.is_empty() {
            head
        } else {
            Term::Apply(Box::new(head), arguments)
        }
    }

    /// `{x = e}` or `{e}`
    fn braced(&mut self) -> Argument {
        let end = self.closing(self.at) - 1;
        self.at += 1;
        let named = self.word(self.at + 1) == "=";
        self.at += if named { 2 } else { 0 };
        let inner = self.inside(end, |p| p.term());
        self.at += 1;
        Argument::Implicit(inner)
    }

    fn atom(&mut self) -> Option<Term> {
        if self.at >= self.end {
            return None;
        }
        let word = self.here();
        let kind = self.words[self.at].kind;
        if kind == Kind::Number || kind == Kind::Text {
            self.at += 1;
            return Some(Term::Literal);
        }
        match word {
            "(" => {
                let inner = self.bracket();
                return Some(self.fields(inner));
            }
            "λ" => return Some(self.lambda()),
            "let" => return Some(self.binding()),
            "record" => return Some(self.record()),
            "elim" => return Some(self.elim()),
            "unfold" => {
                while self.at < self.end && !self.eat("in") {
                    self.at += 1;
                }
                return Some(self.term());
            }
            "⌜" => {
                self.at += 1;
                let inner = self.term();
                self.eat("⌝");
                return Some(inner);
            }
            "Type" | "_" | "𝕀" | "?" => {
                self.at += 1;
                return Some(Term::Literal);
            }
            _ => {}
        }
        if kind != Kind::Name {
            return None;
        }
        Some(self.path())
    }

    /// A name, or names joined by dots without spaces.
    fn path(&mut self) -> Term {
        let mut names = vec![self.at];
        self.at += 1;
        while self.here() == "."
            && self.words[self.at].tight
            && self.at + 1 < self.end
            && self.words[self.at + 1].tight
            && self.words[self.at + 1].kind != Kind::Mark
        {
            names.push(self.at + 1);
            self.at += 2;
        }
        if names.len() == 1 {
            Term::Name(names[0])
        } else {
            Term::Path(names)
        }
    }

    /// The fields that are taken of a term in brackets: each follows without a space.
    pub(crate) fn fields(&mut self, mut of: Term) -> Term {
        while self.at + 1 < self.end && self.here() == "." && self.words[self.at].tight && self.words[self.at + 1].tight {
            of = Term::Field(Box::new(of), self.at + 1);
            self.at += 2;
        }
        of
    }

    fn bracket(&mut self) -> Term {
        if self.opens_binder() {
            return self.term();
        }
        let end = self.closing(self.at) - 1;
        self.at += 1;
        let inner = self.inside(end, |p| p.tuple());
        self.at += 1;
        inner
    }

    fn tuple(&mut self) -> Term {
        let mut parts = Vec::new();
        while self.at < self.end {
            parts.push(self.term());
            if !self.eat(",") {
                break;
            }
        }
        if parts.len() == 1 {
            parts.pop().expect("one part")
        } else {
            Term::Tuple(parts)
        }
    }
}
