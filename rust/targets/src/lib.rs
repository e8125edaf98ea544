//! The proved calls where they are used. The kit lowers the proved code to an LLVM
//! module for x86-64 (`.ci/library` keeps it); [`module`] makes of its text the same
//! module for another processor, and stops on anything that it was not written for;
//! [`signature`] holds the exported functions against what a C compiler makes of
//! `include/crew.h`. [`header`] reads that header, and [`describe`] tells it to
//! other languages.
//!
//! Nothing here is proved. What it makes is tested on each target against the
//! reference.

pub mod describe;
pub mod header;
pub mod module;
pub mod signature;
pub mod target;
pub mod words;
