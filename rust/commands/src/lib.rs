//! What the commands share.

pub mod files;
