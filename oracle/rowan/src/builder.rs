//! The builder: nodes open and close, tokens come between.
use crate::tree::{GreenNode, Recorded, Step, SyntaxKind};
use std::marker::PhantomData;

/// Where a node may still open, late.
#[derive(Clone, Copy, Debug)]
pub struct Checkpoint(usize);

#[derive(Debug, Default)]
pub struct GreenNodeBuilder<'cache> {
    recorded: Recorded,
    open: usize,
    cache: PhantomData<&'cache ()>,
}

impl GreenNodeBuilder<'_> {
    pub fn new() -> Self {
        Self::default()
    }

    pub fn start_node(&mut self, kind: SyntaxKind) {
        self.recorded.steps.push(Step::Open(kind));
        self.open += 1;
    }

    pub fn token(&mut self, kind: SyntaxKind, text: &str) {
        self.recorded.steps.push(Step::Token(kind, text.len()));
        self.recorded.text.push_str(text);
    }

    pub fn finish_node(&mut self) {
        assert!(self.open > 0, "a node closes that was not opened");
        self.recorded.steps.push(Step::Close);
        self.open -= 1;
    }

    pub fn checkpoint(&self) -> Checkpoint {
        Checkpoint(self.recorded.steps.len())
    }

    /// Opens a node around all since the checkpoint, which has to be whole nodes and tokens.
    pub fn start_node_at(&mut self, checkpoint: Checkpoint, kind: SyntaxKind) {
        let Checkpoint(at) = checkpoint;
        assert!(whole(&self.recorded.steps[at..]), "the checkpoint's node is closed, or another is open in it");
        self.recorded.steps.insert(at, Step::Open(kind));
        self.open += 1;
    }

    pub fn finish(self) -> GreenNode {
        assert!(self.open == 0, "a node is open at the end");
        GreenNode::new(self.recorded)
    }
}

/// Each node that opens in these steps closes in them, and no other closes.
fn whole(steps: &[Step]) -> bool {
    let mut open = 0usize;
    for step in steps {
        match step {
            Step::Open(_) => open += 1,
            Step::Token(..) => {}
            Step::Close if open == 0 => return false,
            Step::Close => open -= 1,
        }
    }
    open == 0
}
