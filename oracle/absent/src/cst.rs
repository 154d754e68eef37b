//! Stands in for the typed tree: the types that `parser/mod.rs` and `parser/syntax_tree.rs` name, each with the node it holds.
use crate::SyntaxNode;

pub trait CstNode {}

macro_rules! nodes {
    ($($name:ident)*) => { $(
        pub struct $name {
            pub(crate) syntax: SyntaxNode,
        }
    )* };
}

nodes! { Document SelectionSet NamedType ListType NonNullType }

pub enum Type {
    NamedType(NamedType),
    ListType(ListType),
    NonNullType(NonNullType),
}

impl CstNode for Document {}
impl CstNode for SelectionSet {}
impl CstNode for Type {}
