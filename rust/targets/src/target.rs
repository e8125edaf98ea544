//! The processors and systems that the calls are compiled for.

use std::fmt;
use std::str::FromStr;

#[derive(Clone, Copy, Debug, PartialEq, Eq)]
pub enum Target {
    /// What the kit lowers to.
    X86,
    Arm,
    Android,
    Web,
}

/// How functions of C take and give what is no single number. All of them take a
/// small number, a pointer and a length as such.
#[derive(Clone, Copy, Debug, PartialEq, Eq)]
pub struct Convention {
    /// A struct that is given by value stands in the caller's memory, marked so; else
    /// its address is an ordinary argument.
    pub by_value: bool,
    /// The place for a large result is marked as such and nothing is returned; else it
    /// is the first argument, and returned.
    pub marked_place: bool,
    /// A result of two lengths is returned; else it is written like a large one.
    pub two_lengths: bool,
    /// Who hands a byte over has cleared the bits above it.
    pub cleared: bool,
}

pub const ALL: [Target; 4] = [Target::X86, Target::Arm, Target::Android, Target::Web];

impl Target {
    pub fn name(self) -> &'static str {
        match self {
            Target::X86 => "x86_64-linux",
            Target::Arm => "aarch64-linux",
            Target::Android => "aarch64-android",
            Target::Web => "wasm32",
        }
    }

    /// As LLVM names it. Android 7 is the first whose loader knows the hash table that
    /// the linker writes.
    pub fn triple(self) -> &'static str {
        match self {
            Target::X86 => "x86_64-unknown-linux-gnu",
            Target::Arm => "aarch64-unknown-linux-gnu",
            Target::Android => "aarch64-unknown-linux-android24",
            Target::Web => "wasm32-unknown-unknown",
        }
    }

    /// Sizes and alignments, as the kit's compiler states them for an empty file. A
    /// test asks the compiler.
    pub fn layout(self) -> &'static str {
        match self {
            Target::X86 => "e-m:e-p270:32:32-p271:32:32-p272:64:64-i64:64-i128:128-f80:128-n8:16:32:64-S128",
            Target::Arm | Target::Android => {
                "e-m:e-p270:32:32-p271:32:32-p272:64:64-i8:8:32-i16:16:32-i64:64-i128:128-n32:64-S128-Fn32"
            }
            Target::Web => "e-m:e-p:32:32-p10:8:8-p20:8:8-i64:64-i128:128-n32:64-S128-ni:1:10:20",
        }
    }

    pub fn convention(self) -> Convention {
        match self {
            Target::X86 => Convention {
                by_value: true,
                marked_place: false,
                two_lengths: true,
                cleared: false,
            },
            Target::Arm | Target::Android => Convention {
                by_value: false,
                marked_place: true,
                two_lengths: true,
                cleared: false,
            },
            Target::Web => Convention {
                by_value: true,
                marked_place: true,
                two_lengths: false,
                cleared: true,
            },
        }
    }
}

impl fmt::Display for Target {
    fn fmt(&self, formatter: &mut fmt::Formatter<'_>) -> fmt::Result {
        formatter.write_str(self.name())
    }
}

impl FromStr for Target {
    type Err = String;

    fn from_str(name: &str) -> Result<Target, String> {
        let found = ALL.into_iter().find(|target| target.name() == name);
        let names = ALL.map(Target::name).join(", ");
        found.ok_or_else(|| format!("{name} is none of the targets: {names}"))
    }
}
