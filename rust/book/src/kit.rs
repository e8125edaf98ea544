//! Where the kit is, and the files of its modules.

use std::collections::HashMap;
use std::path::{Path, PathBuf};

/// The kit's library whose names need no path: its methods, and what its prelude has.
pub const STD: &str = "std";
/// It, and the crates that it hands things on from: what the language itself has, and what reads and writes.
pub const STD_PARTS: [&str; 3] = [STD, "core", "std_io"];

/// The crates of the kit that what one of them offers may stand in.
pub fn parts(of: &str) -> Vec<&str> {
    if of == STD {
        STD_PARTS.to_vec()
    } else {
        vec![of]
    }
}

/// The files below a folder with an ending, sorted.
pub fn files_below(folder: &Path, ending: &str) -> Vec<PathBuf> {
    let mut found = Vec::new();
    let Ok(entries) = std::fs::read_dir(folder) else {
        return found;
    };
    for entry in entries.flatten() {
        let path = entry.path();
        if path.is_dir() {
            found.extend(files_below(&path, ending));
        } else if path.extension().is_some_and(|e| e == ending) {
            found.push(path);
        }
    }
    found.sort();
    found
}

/// The kit's folder: `RATTLE_KIT`, or the one whose `rt` the shell finds.
pub fn kit_folder() -> PathBuf {
    if let Some(kit) = std::env::var_os("RATTLE_KIT") {
        return PathBuf::from(kit);
    }
    let paths = std::env::var_os("PATH").unwrap_or_default();
    std::env::split_paths(&paths)
        .filter_map(|folder| folder.join("rt").canonicalize().ok())
        .filter_map(|rt| Some(rt.parent()?.parent()?.to_path_buf()))
        .find(|kit| kit.join("rattle/logic").is_dir())
        .unwrap_or_else(|| PathBuf::from("/opt/rattle"))
}

/// The folders of the kit's own libraries, by name, from the project file of its logic: the libraries that it mounts, each with its modules in `src` or
/// where its own project file says.
pub fn libraries(kit: &Path) -> HashMap<String, PathBuf> {
    let logic = kit.join("rattle/logic");
    let told = std::fs::read_to_string(logic.join("antt-project.json")).unwrap_or_default();
    let mounts = told.split_once("\"mounts\"").map_or("", |m| m.1);
    let mounts = mounts.split_once('}').map_or("", |m| m.0);
    let texts: Vec<&str> = mounts.split('"').skip(1).step_by(2).collect();
    let folder = |place: &str| {
        let folder = logic.join(place);
        let own = std::fs::read_to_string(folder.join("antt-project.json")).unwrap_or_default();
        let src = own.split_once("\"src\"").and_then(|s| s.1.split('"').nth(1)).unwrap_or("src").to_string();
        folder.join(src)
    };
    texts.chunks_exact(2).map(|pair| (pair[0].to_string(), folder(pair[1]))).collect()
}
