//! Stands in for the crate's names of the tree's parts.
use crate::SyntaxKind;

pub enum GraphQLLanguage {}

impl rowan::Language for GraphQLLanguage {
    type Kind = SyntaxKind;

    fn kind_from_raw(raw: rowan::SyntaxKind) -> SyntaxKind {
        assert!(raw.0 < SyntaxKind::__LAST as u16, "a kind that the crate does not have");
        // The kinds are numbered from 0 without a gap, in 16 bits.
        unsafe { std::mem::transmute::<u16, SyntaxKind>(raw.0) }
    }
}

pub type SyntaxNode = rowan::SyntaxNode<GraphQLLanguage>;
pub type SyntaxToken = rowan::SyntaxToken<GraphQLLanguage>;
pub type SyntaxElement = rowan::NodeOrToken<SyntaxNode, SyntaxToken>;

/// Named by `lib.rs`, and not used.
pub struct SyntaxNodeChildren;
/// Named by `parser/mod.rs`, and not used.
pub struct SyntaxNodePtr;
