//! Rosters as text that a person can write: one line for each surveyor and
//! each stand, with its quota and its list, best first.
//!
//! ```text
//! # two surveyors want the one stand, which prefers surveyor 1
//! surveyor 1 quota 1: 1
//! surveyor 2 quota 1: 1
//! stand 1 quota 1: 1 2
//! ```
//!
//! An entry is a number and a shift: `1/3` is number 1 in shift 3, and `1` alone
//! is number 1 in shift 1. The surveyors that a stand ranks alike come last, in
//! brackets. The lines
//! of each side are numbered from 1 in order; the two sides may be mixed. A
//! quota that is not written is 1. What follows a `#` is a comment.
//!
//! Beside a roster there may be a text of ranges, where its ranks are not settled:
//! `stand 1: 2=2..4` says that stand 1 ranks surveyor 2 second, third or fourth. An
//! entry that is not named has its rank in the roster.
//!
//! Files from the seasons before the shifts are turned by `seasons`, and rosters of
//! two districts, as text or as bytes, are joined by `rosters`, commands of the
//! package `commands`: they make the proved calls for that, and this crate is to be had
//! without the proved library.

mod files;
mod line;
mod problem;
mod ranges;
mod text;

pub use files::{pack, pack_ranges, unpack, unpack_ranges};
pub use line::Listed;
pub use problem::{Problem, What};
pub use ranges::{parse_ranges, print_ranges};
pub use text::{parse, print};
