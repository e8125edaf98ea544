//! A folder of season files: which are rosters, and which are plans of them.

use std::collections::{BTreeMap, BTreeSet};
use std::ffi::{OsStr, OsString};
use std::fs;
use std::io;
use std::path::{Path, PathBuf};

/// The names of a folder's files, each kind in the order of the names.
#[derive(Default)]
pub struct Folder {
    /// Each roster with its plans.
    pub rosters: BTreeMap<OsString, Vec<OsString>>,
    pub plans_without_roster: Vec<OsString>,
    /// What is neither a roster nor a plan.
    pub passed_over: Vec<OsString>,
}

impl Folder {
    pub fn list(path: &Path) -> io::Result<Folder> {
        let mut folder = Folder::default();
        let mut plans = BTreeSet::new();
        for entry in fs::read_dir(path)? {
            let entry = entry?;
            let name = entry.file_name();
            match Path::new(&name).extension().and_then(OsStr::to_str) {
                _ if !entry.path().is_file() => folder.passed_over.push(name),
                Some("roster") => drop(folder.rosters.insert(name, Vec::new())),
                Some("plan") => drop(plans.insert(name)),
                _ => folder.passed_over.push(name),
            }
        }
        folder.passed_over.sort();
        for plan in plans {
            match folder.plans_beside(&plan) {
                Some(beside) => beside.push(plan),
                None => folder.plans_without_roster.push(plan),
            }
        }
        Ok(folder)
    }

    /// The plans of the roster that a plan's name stands for: its own name or a
    /// front of it up to a dot, the longest that is there.
    fn plans_beside(&mut self, plan: &OsStr) -> Option<&mut Vec<OsString>> {
        let mut name = PathBuf::from(plan);
        while name.extension().is_some() {
            name.set_extension("");
            let mut roster = name.clone().into_os_string();
            roster.push(".roster");
            if self.rosters.contains_key(&roster) {
                return self.rosters.get_mut(&roster);
            }
        }
        None
    }

    /// How many season files there are.
    pub fn count(&self) -> usize {
        let plans: usize = self.rosters.values().map(Vec::len).sum();
        self.rosters.len() + plans + self.plans_without_roster.len()
    }
}
