//! Links the proved static library. Where it is missing this makes nothing: that would
//! prove for minutes, unasked. It says how the library is made, by a warning, which is
//! all that `cargo check` and `cargo clippy` need, since they do not link; and by the
//! name that the compiler then looks for in vain, since `cargo --quiet` hides warnings.

use std::path::Path;

const LIBRARY: &str = "abi";

fn main() {
    let manifest = std::env::var("CARGO_MANIFEST_DIR").expect("cargo names this folder");
    let root = Path::new(&manifest)
        .ancestors()
        .nth(2)
        .expect("two folders up");
    let folder = root.join("target/staticlib");
    let archive = folder.join(format!("lib{LIBRARY}.a"));
    println!("cargo:rerun-if-changed={}", archive.display());
    println!("cargo:rustc-link-search=native={}", folder.display());
    if archive.exists() {
        println!("cargo:rustc-link-lib=static={LIBRARY}");
        return;
    }
    let made_by = format!(
        "'.ci/library' in {} proves the calls and makes it, in some minutes",
        root.display()
    );
    println!("cargo:warning={} is missing; {made_by}", archive.display());
    println!("cargo:rustc-link-lib=static={LIBRARY} ({made_by})");
}
