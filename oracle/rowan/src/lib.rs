//! A stand-in for rowan, enough for the crate's parser: it keeps what the tree builder is told, in order, and gives it back.
mod builder;
mod tree;

pub use builder::{Checkpoint, GreenNodeBuilder};
pub use tree::{GreenNode, Language, NodeOrToken, Step, SyntaxKind, SyntaxNode, SyntaxToken, TextRange};
