//! Links the static library of the bundle that this crate came with.

use std::env::var;
use std::path::Path;

fn main() {
    let [folder, arch, system] = ["MANIFEST_DIR", "CFG_TARGET_ARCH", "CFG_TARGET_OS"]
        .map(|name| var(format!("CARGO_{name}")).expect("cargo says for what it builds"));
    let system = match system.as_str() {
        "linux" => "linux-gnu",
        "android" => "linux-android",
        other => panic!("crew has no library for {other}"),
    };
    let library = Path::new(&folder).join(format!("../lib/{arch}-{system}"));
    assert!(
        library.join("libcrew.a").exists(),
        "{} has no libcrew.a",
        library.display()
    );
    println!("cargo:rustc-link-search=native={}", library.display());
    println!("cargo:rustc-link-lib=static=crew");
}
