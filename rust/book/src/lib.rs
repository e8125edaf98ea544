//! The contract book: every public call with its contract, each name in it a link to its definition, and on, down to the model and the kit's library.

pub mod believed;
pub mod code;
pub mod contents;
pub mod documents;
pub mod edits;
pub mod entries;
pub mod front;
pub mod html;
pub mod kit;
pub mod lex;
pub mod lists;
pub mod names;
pub mod page;
pub mod papers;
pub mod rattle;
pub mod reach;
pub mod refusals;
pub mod rows;
pub mod sentences;
pub mod source;
pub mod term;
pub mod types;
pub mod walk;
pub mod ways;
