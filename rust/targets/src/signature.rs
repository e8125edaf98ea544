//! The exported functions of a module against `include/crew.h`: each takes and gives
//! what a C compiler for the target expects of it. Both sides are read from the text
//! of an LLVM module: the one that is compiled to the library, and the one that the
//! compiler makes of a file that includes the header.

use std::collections::BTreeMap;

use crate::header::Header;
use crate::target::Target;

/// How something crosses from a caller to a function, or back.
#[derive(Clone, Debug, PartialEq, Eq)]
pub enum Way {
    Pointer,
    Length,
    /// A byte, and whether the bits above it are cleared.
    Byte {
        cleared: bool,
    },
    /// A struct of so many bytes in the caller's memory, marked as such.
    ByValue(usize),
    /// Where a large result is to be written, marked as such.
    Place,
    TwoLengths,
    Nothing,
}

/// What a function gives, and what it takes.
#[derive(Clone, Debug, PartialEq, Eq)]
pub struct Signature {
    pub gives: Way,
    pub takes: Vec<Way>,
}

pub type Signatures = BTreeMap<String, Signature>;

/// The exported functions that a module defines.
pub fn defined(module: &str, target: Target, header: &Header) -> Result<Signatures, String> {
    let heads = module
        .lines()
        .filter(|line| line.starts_with("define ") && !line.starts_with("define internal "));
    heads.map(|line| signature(line, target, header)).collect()
}

/// The functions that the compiler knows from the header.
pub fn declared(module: &str, target: Target, header: &Header) -> Result<Signatures, String> {
    let heads = module.lines().filter(|line| line.starts_with("declare "));
    heads.map(|line| signature(line, target, header)).collect()
}

/// What differs, a line for each function.
pub fn differences(defined: &Signatures, declared: &Signatures) -> Vec<String> {
    let mut lines = Vec::new();
    for (name, expected) in declared {
        match defined.get(name) {
            Some(own) if own == expected => {}
            Some(own) => lines.push(format!(
                "{name}: the library has {own:?}, the header {expected:?}"
            )),
            None => lines.push(format!("{name}: not in the library")),
        }
    }
    let more = defined.keys().filter(|name| !declared.contains_key(*name));
    lines.extend(more.map(|name| format!("{name}: not in the header")));
    lines
}

fn signature(line: &str, target: Target, header: &Header) -> Result<(String, Signature), String> {
    let unknown = || format!("a signature that is not known: {line}");
    let (gives, rest) = line.split_once('@').ok_or_else(unknown)?;
    let (name, rest) = rest.split_once('(').ok_or_else(unknown)?;
    let (arguments, _) = rest.rsplit_once(") #").ok_or_else(unknown)?;
    let (_, gives) = gives.trim_end().split_once(' ').ok_or_else(unknown)?;
    let takes: Option<Vec<Way>> = arguments
        .split(", ")
        .filter(|argument| !argument.is_empty())
        .map(|argument| taken(argument, header))
        .collect();
    let mut signature = Signature {
        gives: given(gives).ok_or_else(unknown)?,
        takes: takes.ok_or_else(unknown)?,
    };
    if target == Target::X86 {
        as_on_x86(&mut signature);
    }
    Ok((name.to_owned(), signature))
}

/// On x86-64 the place of a large result is the first pointer, marked or not, and
/// returned; who does not expect it finds nothing. The bits above a byte are never
/// looked at, so it is no matter who clears them.
fn as_on_x86(signature: &mut Signature) {
    if signature.gives == Way::Pointer {
        signature.gives = Way::Nothing;
        if let Some(first) = signature.takes.first_mut() {
            *first = Way::Place;
        }
    }
    for way in signature.takes.iter_mut().chain([&mut signature.gives]) {
        if let Way::Byte { cleared } = way {
            *cleared = false;
        }
    }
}

fn given(words: &str) -> Option<Way> {
    let words: Vec<&str> = words.split(' ').filter(|word| *word != "noundef").collect();
    match words[..] {
        ["void"] => Some(Way::Nothing),
        ["ptr"] => Some(Way::Pointer),
        ["i8"] => Some(Way::Byte { cleared: false }),
        ["zeroext", "i8"] => Some(Way::Byte { cleared: true }),
        // two registers, of which the first may have less to hold
        ["{", "i8," | "i16," | "i64,", "i64", "}"] | ["[2", "x", "i64]"] => Some(Way::TwoLengths),
        _ => None,
    }
}

/// What says how an argument crosses; the rest are promises of the compiler to itself.
const SAID: &[&str] = &[
    "noundef",
    "dead_on_unwind",
    "dead_on_return",
    "writable",
    "align",
    "8",
];

fn taken(argument: &str, header: &Header) -> Option<Way> {
    let words = argument
        .split(' ')
        .filter(|word| !SAID.contains(word) && !word.starts_with('%'));
    // a struct's type has spaces in a module of the kit, and none in one of the compiler
    let words: Vec<&str> = words.collect();
    let joined = words.join(" ");
    match joined.as_str() {
        "ptr" => Some(Way::Pointer),
        "i64" => Some(Way::Length),
        "i8" => Some(Way::Byte { cleared: false }),
        "i8 zeroext" => Some(Way::Byte { cleared: true }),
        _ => {
            let marked = joined.strip_prefix("ptr ")?;
            if marked.starts_with("sret(") && marked.ends_with(')') {
                return Some(Way::Place);
            }
            let of = marked.strip_prefix("byval(")?.strip_suffix(')')?;
            let size = match of.strip_prefix("%struct.") {
                Some(name) => header.structure(name)?.size,
                None => of.strip_prefix('[')?.strip_suffix(" x i8]")?.parse().ok()?,
            };
            Some(Way::ByValue(size))
        }
    }
}
