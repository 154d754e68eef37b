//! Stands in for the file of this name: its `mod` line.
pub mod syntax_kind;
