//! What the tests of the commands share: where the samples are, folders of their
//! own, and what a command says.

// Every test file compiles this module for itself and uses its part of it.
#![allow(dead_code)]

use std::collections::BTreeMap;
use std::ffi::OsStr;
use std::fs;
use std::path::{Path, PathBuf};
use std::process::Command;

/// The repository's folder.
pub fn root() -> PathBuf {
    Path::new(env!("CARGO_MANIFEST_DIR")).join("../..")
}

/// A folder for one test, removed at its end.
pub struct Scratch(PathBuf);

impl Scratch {
    pub fn new(name: &str) -> Scratch {
        let path = std::env::temp_dir().join(format!("crew-{}-{name}", std::process::id()));
        fs::create_dir(&path).expect("a new folder");
        Scratch(path)
    }

    /// A folder in it with these files.
    pub fn folder(&self, name: &str, files: &[(&str, &[u8])]) -> PathBuf {
        let path = self.0.join(name);
        fs::create_dir(&path).expect("a new folder");
        for (name, bytes) in files {
            fs::write(path.join(name), bytes).expect("a file");
        }
        path
    }

    /// The path of a folder or a file that is not there yet.
    pub fn target(&self, name: &str) -> PathBuf {
        self.0.join(name)
    }
}

impl Drop for Scratch {
    fn drop(&mut self) {
        // what stays behind is in the folder for such things
        let _ = fs::remove_dir_all(&self.0);
    }
}

/// The files of a folder by their names.
pub fn files(folder: &Path) -> BTreeMap<String, Vec<u8>> {
    let entries = fs::read_dir(folder).expect("a folder");
    let paths = entries.map(|entry| entry.expect("an entry").path());
    let files = paths.filter(|path| path.is_file()).map(|path| {
        let name = path.file_name().and_then(|name| name.to_str());
        let name = name.expect("a plain name").to_owned();
        (name, fs::read(&path).expect("its bytes"))
    });
    files.collect()
}

/// What the command said: its exit code, and the lines of its two outputs.
pub struct Said {
    pub code: i32,
    pub lines: Vec<String>,
    pub errors: Vec<String>,
}

/// Runs a command, by the path of its program.
pub fn run<S: AsRef<OsStr>>(program: &str, arguments: &[S]) -> Said {
    let output = Command::new(program)
        .args(arguments)
        .output()
        .expect("the command starts");
    let lines = |bytes: Vec<u8>| -> Vec<String> {
        let text = String::from_utf8(bytes).expect("plain text");
        text.lines().map(str::to_owned).collect()
    };
    Said {
        code: output.status.code().expect("the command ends by itself"),
        lines: lines(output.stdout),
        errors: lines(output.stderr),
    }
}
