//! What a contract reaches: all definitions that its names lead to, and of those the ones that its own call can come to.

use crate::names::{Library, Target};
use crate::rattle::Function;
use crate::source::Sort;
use crate::types::Trees;
use crate::walk::{self, Link, Links};
use std::cell::RefCell;
use std::collections::{BTreeSet, HashMap, HashSet};
use std::rc::Rc;

/// The names of all declarations, each resolved once.
pub struct Names<'a> {
    pub trees: &'a Trees<'a>,
    links: RefCell<HashMap<usize, Rc<Links>>>,
    /// records that some definition builds: of these only the fields that are taken count, of others, which are statements, all
    built: RefCell<HashSet<usize>>,
}

impl<'a> Names<'a> {
    pub fn new(trees: &'a Trees<'a>) -> Self {
        Names { trees, links: RefCell::new(HashMap::new()), built: RefCell::new(HashSet::new()) }
    }

    pub fn library(&self) -> &'a Library {
        self.trees.library
    }

    /// Whether a declaration is a law: shut, so that its statement is all that others see.
    pub fn is_law(&self, decl: usize) -> bool {
        let d = &self.library().decls[decl];
        d.sort == Sort::Definition && !d.open
    }

    /// The names of a declaration that the book shows: all of a definition, the statement of a law, none of the kit's.
    pub fn links(&self, decl: usize) -> Rc<Links> {
        if let Some(links) = self.links.borrow().get(&decl) {
            return links.clone();
        }
        let d = &self.library().decls[decl];
        let links = if self.library().crate_of(d.file).is_none() {
            Links::default()
        } else if self.is_law(decl) {
            walk::statement(self.trees, decl)
        } else {
            walk::declaration(self.trees, decl)
        };
        let links = Rc::new(links);
        self.links.borrow_mut().insert(decl, links.clone());
        links
    }

    /// The declarations that some names lead to.
    pub fn targets(links: &Links) -> impl Iterator<Item = usize> + '_ {
        links.words.values().filter_map(|link| match link {
            Link::To(target) => target.decl(),
            _ => None,
        })
    }

    /// Everything that names lead to, and on.
    pub fn closure(&self, starts: impl IntoIterator<Item = usize>) -> BTreeSet<usize> {
        let mut found = BTreeSet::new();
        let mut queue: Vec<usize> = starts.into_iter().collect();
        while let Some(decl) = queue.pop() {
            if found.insert(decl) {
                queue.extend(Self::targets(&self.links(decl)));
            }
        }
        found
    }

    /// What a contract can come to: of a definition by cases only those clauses count whose constructors the contract, or what it comes to, names outside of
    /// patterns, and of a record that is built only those fields that are taken from it. So `Desk::blocking` comes to what the desk answers to `blocking`, and
    /// not to what it answers to the other calls.
    pub fn comes_to(&self, links: &Links) -> BTreeSet<usize> {
        let mut course = Course { names: self, found: BTreeSet::new(), made: HashSet::new(), any: HashSet::new() };
        course.run(links);
        course.found
    }

    /// The records that definitions build, of all that some names lead to.
    pub fn note_built(&self, starts: impl IntoIterator<Item = usize>) {
        let all = self.closure(starts);
        let built = all.iter().flat_map(|&d| self.links(d).built.clone());
        self.built.borrow_mut().extend(built);
    }
}

/// The search for what a contract can come to.
struct Course<'b, 'a> {
    names: &'b Names<'a>,
    found: BTreeSet<usize>,
    /// constructors that are named outside of patterns
    made: HashSet<Target>,
    /// data of which no constructor is: a value of it comes from outside, and may be any
    any: HashSet<usize>,
}

impl Course<'_, '_> {
    fn run(&mut self, links: &Links) {
        self.take(links, &mut Vec::new());
        let mut whole: HashSet<usize> = HashSet::new();
        loop {
            let before = (self.found.len(), self.made.len());
            let mut waiting = Vec::new();
            let next: Vec<usize> = self.found.iter().copied().filter(|d| !whole.contains(d)).collect();
            for decl in next {
                let links = self.names.links(decl);
                if self.take(&links, &mut waiting) {
                    whole.insert(decl);
                }
            }
            if before == (self.found.len(), self.made.len()) {
                let made = |d: usize, made: &HashSet<Target>| made.iter().any(|t| t.decl() == Some(d));
                let unmade: Vec<usize> = waiting.into_iter().filter(|&d| !made(d, &self.made) && !self.any.contains(&d)).collect();
                if unmade.is_empty() {
                    break;
                }
                self.any.extend(unmade);
            }
        }
    }

    /// Whether a clause for some constructors can be met; data that stand in the way are noted.
    fn open(&self, matched: &[Target], waiting: &mut Vec<usize>) -> bool {
        let library = self.names.library();
        let mut open = true;
        for target in matched {
            let Target::Member(d, _) = target else {
                continue;
            };
            let decl = &library.decls[*d];
            if library.crate_of(decl.file).is_none() || self.made.contains(target) {
                continue;
            }
            match decl.sort {
                Sort::Data if self.any.contains(d) => {}
                Sort::Data => {
                    waiting.push(*d);
                    open = false;
                }
                Sort::Record => open = false,
                _ => {}
            }
        }
        open
    }

    /// Takes the names that count by now; tells whether those are all.
    fn take(&mut self, links: &Links, waiting: &mut Vec<usize>) -> bool {
        let cases = links.cases.iter().filter(|case| !self.open(&case.1, waiting)).map(|case| case.0);
        let mut shut: Vec<_> = cases.collect();
        let built = self.names.built.borrow();
        let untaken = |t: &Target| t.decl().is_some_and(|d| built.contains(&d)) && !self.made.contains(t);
        shut.extend(links.fields.iter().filter(|f| untaken(&f.1)).map(|f| f.0));
        for (&word, link) in &links.words {
            let Link::To(target) = link else {
                continue;
            };
            let inside = shut.iter().any(|s| s.from <= word && word < s.to);
            let (Some(decl), false) = (target.decl(), inside) else {
                continue;
            };
            self.found.insert(decl);
            if !links.patterns.contains(&word) {
                self.made.insert(*target);
            }
        }
        shut.is_empty()
    }
}

/// A public call: its function, and the names of its contract.
pub struct Call {
    pub name: String,
    pub function: usize,
    pub links: Links,
    /// what it comes to
    pub comes_to: BTreeSet<usize>,
}

/// The crates whose public calls are a user's: those of which the gate asks that no call has a `requires`.
pub fn public_crates(gate: &str) -> Vec<String> {
    let Some(from) = gate.find("crates/{") else {
        return Vec::new();
    };
    let rest = &gate[from + "crates/{".len()..];
    let list = &rest[..rest.find('}').unwrap_or(0)];
    list.split(',').map(str::to_string).collect()
}

/// The name of a call for a reader: `Desk::find`, `crew_find`, `roster::read_roster`.
pub fn call_name(library: &Library, function: &Function) -> String {
    if function.exported || function.name.contains("::") {
        function.name.clone()
    } else {
        format!("{}::{}", library.crate_of(function.file).unwrap_or(""), function.name)
    }
}

/// The public calls of some crates.
pub fn calls(names: &Names, crates: &[String]) -> Vec<Call> {
    let library = names.library();
    let mut found = Vec::new();
    for (n, function) in library.functions.iter().enumerate() {
        let owner = library.crate_of(function.file).unwrap_or("");
        if !function.public || !crates.iter().any(|c| c == owner) {
            continue;
        }
        found.push(Call { name: call_name(library, function), function: n, links: walk::contract(names.trees, function), comes_to: BTreeSet::new() });
    }
    names.note_built(found.iter().flat_map(|c| Names::targets(&c.links)).collect::<Vec<_>>());
    for call in &mut found {
        call.comes_to = names.comes_to(&call.links);
    }
    found
}

#[cfg(test)]
mod tests {
    use super::*;

    #[test]
    fn the_gate_names_the_public_crates() {
        assert_eq!(public_crates("x\n  crates/{answers,desk}/src/*.rt)\n"), ["answers", "desk"]);
    }
}
