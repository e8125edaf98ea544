//! Compiles the peer from outside (`peer/verdict.cpp`) where its library is there. Where
//! it is not, the benchmark is built without it and its rows say so.

use std::env;
use std::io::Write;
use std::path::{Path, PathBuf};
use std::process::{Command, Stdio};

const SOURCE: &str = "peer/verdict.cpp";
/// What of the library is used; where Debian's package puts it.
const HEADER: &str = "lemon/network_simplex.h";
const INCLUDE: &str = "/usr/include";

fn main() {
    println!("cargo:rustc-check-cfg=cfg(peer)");
    println!("cargo:rerun-if-changed={SOURCE}");
    println!("cargo:rerun-if-env-changed=CPLUS_INCLUDE_PATH");
    println!(
        "cargo:rerun-if-changed={}",
        Path::new(INCLUDE).join(HEADER).display()
    );
    if !is_there() {
        return;
    }
    let folder = PathBuf::from(env::var("OUT_DIR").expect("cargo names a folder"));
    let object = folder.join("verdict.o");
    run(Command::new("g++")
        .args(["-std=c++14", "-O3", "-DNDEBUG", "-Wall", "-Wextra", "-c"])
        .args([SOURCE, "-o"])
        .arg(&object));
    run(Command::new("ar")
        .arg("rcs")
        .arg(folder.join("libpeer.a"))
        .arg(&object));
    println!("cargo:rustc-link-search=native={}", folder.display());
    println!("cargo:rustc-link-lib=static=peer");
    println!("cargo:rustc-link-lib=stdc++");
    println!("cargo:rustc-cfg=peer");
}

/// Whether the compiler and the library's header are there.
fn is_there() -> bool {
    let probe = Command::new("g++")
        .args(["-E", "-x", "c++", "-"])
        .stdin(Stdio::piped())
        .stdout(Stdio::null())
        .stderr(Stdio::null())
        .spawn();
    let Ok(mut probe) = probe else {
        return false;
    };
    let include = format!("#include <{HEADER}>\n");
    let input = probe.stdin.take().expect("a pipe");
    let asked = { input }.write_all(include.as_bytes());
    let answer = probe.wait();
    asked.is_ok() && answer.is_ok_and(|status| status.success())
}

/// With the library there the peer must compile.
fn run(command: &mut Command) {
    let status = command.status();
    assert!(status.is_ok_and(|status| status.success()), "{command:?}");
}
