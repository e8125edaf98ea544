//! The edits that must be refused: the wrong program that each tries, and the definition or the function that it changes.

use crate::kit::files_below;
use crate::names::Library;

/// What an edit changes.
#[derive(Clone, Copy, PartialEq, Eq, Debug)]
pub enum Changed {
    Decl(usize),
    Function(usize),
    /// a line outside of both, or one that is not there
    Elsewhere,
}

/// An edit: its first line says which wrong program it tries.
pub struct Edit {
    /// `crate/label`
    pub name: String,
    pub wrong: String,
    pub file: String,
    /// what goes, and what comes in its place
    pub changes: Vec<(String, String)>,
    pub changed: Vec<Changed>,
}

/// Takes an edit's file apart.
fn parse(name: String, told: &str) -> Edit {
    let mut edit = Edit { name, wrong: String::new(), file: String::new(), changes: Vec::new(), changed: Vec::new() };
    for line in told.lines() {
        if let Some(wrong) = line.strip_prefix("# ") {
            edit.wrong.push_str(wrong);
        } else if let Some(file) = line.strip_prefix("file: ") {
            edit.file = file.trim().to_string();
        } else if let Some(old) = line.strip_prefix("old: ") {
            edit.changes.push((old.to_string(), String::new()));
        } else if let Some(new) = line.strip_prefix("new:") {
            if let Some(last) = edit.changes.last_mut() {
                last.1 = new.strip_prefix(' ').unwrap_or(new).to_string();
            }
        }
    }
    edit
}

/// All edits of the crates, sorted by name.
pub fn read(library: &Library) -> std::io::Result<Vec<Edit>> {
    let mut found = Vec::new();
    for owner in library.crates()? {
        let folder = library.root.join("crates").join(&owner);
        for path in files_below(&folder.join("must-fail"), "edit") {
            let label = path.file_stem().unwrap_or_default().to_string_lossy();
            let mut edit = parse(format!("{owner}/{label}"), &std::fs::read_to_string(&path)?);
            let place = folder.join(&edit.file);
            let file = library.files.iter().position(|f| f.place == place);
            edit.changed = match file {
                Some(file) => edit.changes.iter().map(|c| changed(library, file, &c.0)).collect(),
                None => vec![Changed::Elsewhere],
            };
            edit.changed.dedup();
            if edit.changed.iter().any(|c| *c != Changed::Elsewhere) {
                edit.changed.retain(|c| *c != Changed::Elsewhere);
            }
            found.push(edit);
        }
    }
    Ok(found)
}

/// The declaration or function of a file that has a text.
fn changed(library: &Library, file: usize, old: &str) -> Changed {
    let source = &library.files[file];
    let Some(at) = source.text.find(old) else {
        return Changed::Elsewhere;
    };
    let inside = |from: usize, to: usize| from < to && source.words[from].start < at + old.len() && at < source.words[to - 1].end;
    for (n, f) in library.functions.iter().enumerate() {
        if f.file == file && inside(f.header.from, f.body.to) {
            return Changed::Function(n);
        }
    }
    for &d in &source.decls {
        let words = library.decls[d].words;
        if inside(words.from, words.to) {
            return Changed::Decl(d);
        }
    }
    Changed::Elsewhere
}

#[cfg(test)]
mod tests {
    use super::*;

    #[test]
    fn an_edit_is_taken_apart() {
        let edit = parse("a/b".to_string(), "# the wrong one\nfile: specs/V.antt\nold: f x = 1\nnew: f x = 2\nold: g\nnew:\n");
        assert_eq!(edit.wrong, "the wrong one");
        assert_eq!(edit.file, "specs/V.antt");
        assert_eq!(edit.changes[0], ("f x = 1".to_string(), "f x = 2".to_string()));
        assert_eq!(edit.changes[1].1, "");
    }
}
