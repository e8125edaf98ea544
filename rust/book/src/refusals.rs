//! The refusals: what each number means, which definitions give it, and who answers it.

use crate::contents::Book;
use crate::html::{escaped, table};
use crate::lists::Block;
use std::collections::{BTreeMap, BTreeSet};

/// A number that a call answers.
pub struct Refusal {
    pub number: usize,
    /// when, in the paper's words
    pub words: String,
    pub group: String,
    /// the definitions that have the number
    pub by: Vec<usize>,
    /// which others are met before it, where both could be
    pub after: String,
    pub calls: Vec<String>,
}

impl Book<'_> {
    /// All refusals by their numbers.
    pub fn refusals(&self) -> Vec<Refusal> {
        let groups = self.groups();
        let sites = self.refusal_sites();
        let listed = self.lists.refusals.iter().filter_map(|b| b.get("number").parse::<usize>().ok());
        let numbers: BTreeSet<usize> = listed.chain(sites.keys().copied()).collect();
        numbers.into_iter().map(|number| self.refusal(number, &groups, &sites)).collect()
    }

    fn refusal(&self, number: usize, groups: &[(Vec<usize>, String)], sites: &BTreeMap<usize, BTreeSet<usize>>) -> Refusal {
        let blocks: Vec<&Block> = self.lists.refusals.iter().filter(|b| b.get("number") == number.to_string()).collect();
        let named = |key: &'static str| blocks.iter().flat_map(move |b| b.names(key));
        let by = named("by").filter_map(|d| self.library().named(d));
        let by: BTreeSet<usize> = by.chain(sites.get(&number).into_iter().flatten().copied()).collect();
        let words = match blocks.first().map_or("", |b| b.get("words")) {
            "" => self.words_about(&by, number),
            words => words.to_string(),
        };
        let mut calls: Vec<String> = named("calls").map(str::to_string).collect();
        if calls.is_empty() {
            calls = self.calls.iter().filter(|c| by.iter().any(|d| c.comes_to.contains(d))).map(|c| c.name.clone()).collect();
        }
        let after: Vec<&str> = blocks.iter().map(|b| b.get("after")).filter(|a| !a.is_empty()).collect();
        let group = groups.iter().find(|g| g.0.contains(&number)).map_or("content", |g| g.1.as_str());
        Refusal { number, words, group: group.to_string(), by: by.into_iter().collect(), after: after.join("; "), calls }
    }

    /// The refusals as the book shows them: who answers each, when and after which.
    pub fn refusals_text(&self) -> String {
        let rows = self.refusals().into_iter().map(|r| {
            let by: Vec<String> = r.by.iter().map(|&d| self.link_named(d)).collect();
            let calls: Vec<String> = r.calls.iter().map(|c| self.link_call(c)).collect();
            let number = format!("<b id=\"refusal-{0}\">{0}</b>", r.number);
            vec![number, escaped(&r.words), escaped(&r.group), by.join(", "), escaped(&r.after), calls.join(", ")]
        });
        let rows: Vec<Vec<String>> = rows.collect();
        table("refusals", &["no.", "when", "group", "given by", "after", "answered by"], &rows)
    }

    /// Definitions of the model that give a refusal's number: behind `refused` or `refusal`, or, in a check, behind the test of a `cond`.
    fn refusal_sites(&self) -> BTreeMap<usize, BTreeSet<usize>> {
        let library = self.library();
        let mut found: BTreeMap<usize, BTreeSet<usize>> = BTreeMap::new();
        for &decl in self.entries.iter().filter(|&&d| self.is_model(d)) {
            let d = &library.decls[decl];
            let file = &library.files[d.file];
            let check = d.name.ends_with("_check") || d.name.ends_with("_refusal");
            for k in d.of.to + 1..d.words.to {
                let gives = matches!(file.word(k - 1), "refused" | "refusal") || (check && file.word(k - 1) == ")");
                match file.word(k).parse() {
                    Ok(number) if gives && number > 0 => _ = found.entry(number).or_default().insert(decl),
                    _ => {}
                }
            }
        }
        found
    }

    /// What the papers say of a number, by the quotations of the definitions that give it.
    fn words_about(&self, by: &BTreeSet<usize>, number: usize) -> String {
        let all = by.iter().filter_map(|d| self.quoted.get(d)).flatten();
        let mut said = all.filter(|q| crate::papers::words(&q.0).contains(&number.to_string()));
        said.next().map_or(String::new(), |q| q.0.clone())
    }

    /// The groups of refusals, from the cases of the code's `group_of`.
    fn groups(&self) -> Vec<(Vec<usize>, String)> {
        let library = self.library();
        let of = library.functions.iter().find(|f| f.name == "group_of" && library.crate_of(f.file) == Some("answers"));
        let mut found = Vec::new();
        let Some(function) = of else {
            return found;
        };
        let file = &library.files[function.file];
        let mut numbers: Vec<usize> = Vec::new();
        let mut range = false;
        for k in function.body.from..function.body.to {
            match (file.word(k), file.word(k).parse::<usize>()) {
                (_, Ok(number)) => {
                    let from = if range { numbers.last().map_or(number, |n| n + 1) } else { number };
                    numbers.extend(from..=number);
                    range = false;
                }
                (".", _) => range = true,
                (word, _) if file.word(k - 1) == ":" && word != ":" => found.push((std::mem::take(&mut numbers), word.to_lowercase())),
                _ => {}
            }
        }
        found
    }
}
