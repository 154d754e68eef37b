//! Stands in for a token's text, which `lib.rs` names and the parser does not use.
pub struct TokenText;
