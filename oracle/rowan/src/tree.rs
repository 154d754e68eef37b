//! What was recorded, and the views of it that the crate's `syntax_tree.rs` names. The oracle reads `GreenNode::steps` only.
use std::marker::PhantomData;
use std::ops::Range;
use std::sync::Arc;

#[derive(Clone, Copy, Debug, PartialEq, Eq)]
pub struct SyntaxKind(pub u16);

pub type TextRange = Range<usize>;

/// One call of the builder. A token has its length in bytes.
#[derive(Clone, Copy, Debug, PartialEq, Eq)]
pub enum Step {
    Open(SyntaxKind),
    Token(SyntaxKind, usize),
    Close,
}

#[derive(Debug, Default, PartialEq, Eq)]
pub(crate) struct Recorded {
    pub(crate) steps: Vec<Step>,
    pub(crate) text: String,
}

#[derive(Clone, Debug, PartialEq, Eq)]
pub struct GreenNode(Arc<Recorded>);

impl GreenNode {
    pub(crate) fn new(recorded: Recorded) -> GreenNode {
        GreenNode(Arc::new(recorded))
    }

    /// The calls in order, but for a node that opened late: it stands where it opens.
    pub fn steps(&self) -> &[Step] {
        &self.0.steps
    }
}

pub trait Language {
    type Kind;
    fn kind_from_raw(raw: SyntaxKind) -> Self::Kind;
}

/// The node that opens at a step.
pub struct SyntaxNode<L> {
    tree: GreenNode,
    step: usize,
    start: usize,
    language: PhantomData<L>,
}

pub struct SyntaxToken<L> {
    tree: GreenNode,
    kind: SyntaxKind,
    range: TextRange,
    language: PhantomData<L>,
}

pub enum NodeOrToken<N, T> {
    Node(N),
    Token(T),
}

impl<L: Language> SyntaxNode<L> {
    pub fn new_root(tree: GreenNode) -> Self {
        SyntaxNode { tree, step: 0, start: 0, language: PhantomData }
    }

    pub fn kind(&self) -> L::Kind {
        match self.tree.steps()[self.step] {
            Step::Open(kind) => L::kind_from_raw(kind),
            _ => panic!("a node stands where one opens"),
        }
    }

    pub fn text_range(&self) -> TextRange {
        let mut range = self.start..self.start;
        for child in self.children_with_tokens() {
            range.end = match child {
                NodeOrToken::Node(node) => node.text_range().end,
                NodeOrToken::Token(token) => token.range.end,
            };
        }
        range
    }

    pub fn children_with_tokens(&self) -> Vec<NodeOrToken<SyntaxNode<L>, SyntaxToken<L>>> {
        let (mut children, mut open, mut start) = (Vec::new(), 0, self.start);
        for step in self.step + 1..self.tree.steps().len() {
            let tree = self.tree.clone();
            match self.tree.steps()[step] {
                Step::Open(_) => {
                    if open == 0 {
                        children.push(NodeOrToken::Node(SyntaxNode { tree, step, start, language: PhantomData }));
                    }
                    open += 1;
                }
                Step::Token(kind, length) => {
                    if open == 0 {
                        let range = start..start + length;
                        children.push(NodeOrToken::Token(SyntaxToken { tree, kind, range, language: PhantomData }));
                    }
                    start += length;
                }
                Step::Close if open == 0 => break,
                Step::Close => open -= 1,
            }
        }
        children
    }
}

impl<L: Language> SyntaxToken<L> {
    pub fn text_range(&self) -> TextRange {
        self.range.clone()
    }

    pub fn text(&self) -> &str {
        &self.tree.0.text[self.range.clone()]
    }
}

impl<L: Language> NodeOrToken<SyntaxNode<L>, SyntaxToken<L>> {
    pub fn kind(&self) -> L::Kind {
        match self {
            NodeOrToken::Node(node) => node.kind(),
            NodeOrToken::Token(token) => L::kind_from_raw(token.kind),
        }
    }
}

impl<L> From<SyntaxNode<L>> for NodeOrToken<SyntaxNode<L>, SyntaxToken<L>> {
    fn from(node: SyntaxNode<L>) -> Self {
        NodeOrToken::Node(node)
    }
}
