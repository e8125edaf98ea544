//! The rows of docs/ARCHITECTURE.md that lead from a sentence to its definition, contract, proof and test.

use crate::names::Library;

/// A row: its cells as they are written, and the definitions and calls that it names.
pub struct Row {
    pub section: String,
    pub sentence: String,
    pub definition: String,
    pub contract: String,
    pub proof: String,
    pub test: String,
    pub definitions: Vec<usize>,
    pub calls: Vec<String>,
}

/// Names in a cell: what stands in brackets is left out, and commas and semicolons part them.
fn names(cell: &str) -> Vec<String> {
    let mut plain = String::new();
    let mut depth = 0;
    for c in cell.chars() {
        match c {
            '(' => depth += 1,
            ')' => depth -= 1,
            '`' => {}
            _ if depth == 0 => plain.push(c),
            _ => {}
        }
    }
    plain.split([',', ';']).map(|n| n.trim().to_string()).filter(|n| !n.is_empty()).collect()
}

/// The declaration that `File.name` or `crate/File.name` is: a file of the model before others.
fn definition(library: &Library, told: &str) -> Option<usize> {
    if told.contains('/') {
        return library.named(told);
    }
    let (file, name) = told.split_once('.')?;
    let endings = [format!(".specs.{file}"), format!(".proofs.{file}")];
    let fits = |f: &usize| endings.iter().any(|e| library.files[*f].path.ends_with(e));
    let mut files: Vec<usize> = (0..library.files.len()).filter(fits).collect();
    files.sort_by_key(|&f| !library.crate_of(f).is_some_and(|c| c.starts_with("model")));
    files.into_iter().find_map(|f| library.find(&library.files[f].path, name)?.decl())
}

/// The definitions of a cell, and the names that are none. A name without a file stands in the file of the one before it; `rule1 .. rule7` are both.
pub fn definitions(library: &Library, cell: &str) -> (Vec<usize>, Vec<String>) {
    let (mut found, mut lost, mut file) = (Vec::new(), Vec::new(), String::new());
    for name in names(cell).iter().flat_map(|n| n.split(" .. ")) {
        let whole = match name.rsplit_once('.') {
            Some((before, _)) => {
                file = before.to_string();
                name.to_string()
            }
            None if file.is_empty() => continue,
            None => format!("{file}.{name}"),
        };
        match definition(library, &whole) {
            Some(d) => found.push(d),
            None => lost.push(whole),
        }
    }
    (found, lost)
}

/// The calls of a cell: `Desk::find, join` are two of the desk; a call for C stands behind the word `abi`.
fn calls(cell: &str) -> Vec<String> {
    let mut found = Vec::new();
    let mut owner = String::new();
    for name in names(cell) {
        let name = name.rsplit(' ').next().unwrap_or("").to_string();
        let name = name.strip_prefix("desk::").map(str::to_string).unwrap_or(name);
        if let Some((before, _)) = name.split_once("::") {
            owner = before.to_string();
            found.push(name);
        } else if name.starts_with("crew_") || owner.is_empty() {
            found.push(name);
        } else {
            found.push(format!("{owner}::{name}"));
        }
    }
    found
}

/// The rows of the tables with five columns, and the names of definitions in them that lead nowhere.
pub fn read(library: &Library, document: &str) -> (Vec<Row>, Vec<String>) {
    let (mut rows, mut lost, mut section) = (Vec::new(), Vec::new(), String::new());
    for line in document.lines() {
        if let Some(title) = line.strip_prefix("### ") {
            section = title.to_string();
        }
        let cells: Vec<&str> = line.trim().trim_matches('|').split(" | ").map(str::trim).collect();
        let [sentence, definition, contract, proof, test] = cells[..] else {
            continue;
        };
        if !line.starts_with('|') || sentence == "sentence" {
            continue;
        }
        let (definitions, missing) = definitions(library, definition);
        lost.extend(missing.into_iter().map(|m| format!("docs/ARCHITECTURE.md: {m} leads nowhere")));
        rows.push(Row {
            section: section.clone(),
            sentence: sentence.to_string(),
            definition: definition.to_string(),
            contract: contract.to_string(),
            proof: proof.to_string(),
            test: test.to_string(),
            definitions,
            calls: calls(contract),
        });
    }
    (rows, lost)
}

#[cfg(test)]
mod tests {
    use super::*;

    #[test]
    fn names_of_a_cell() {
        assert_eq!(names("`A.b` (c, d), e; F.g"), ["A.b", "e", "F.g"]);
        assert_eq!(calls("Desk::find (one), join; abi crew_find"), ["Desk::find", "Desk::join", "crew_find"]);
    }
}
