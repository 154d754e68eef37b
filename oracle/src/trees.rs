//! The crate's tree as document 01's events.
use crate::frames::Frame;
use crate::items::Item;
use apollo_parser::SyntaxKind;
use rowan::Step;

/// A node of the crate's tree, with all that is in it.
pub struct Node {
    pub events: Vec<Item>,
    /// Where its last token ends.
    pub end: usize,
}

/// No code of document 01: for what it has no code for.
const NO_CODE: u8 = 63;

/// Document 01's number of a node.
fn node_code(kind: rowan::SyntaxKind) -> u8 {
    const NODES: [SyntaxKind; 25] = [
        SyntaxKind::NAME,
        SyntaxKind::INT_VALUE,
        SyntaxKind::FLOAT_VALUE,
        SyntaxKind::STRING_VALUE,
        SyntaxKind::BOOLEAN_VALUE,
        SyntaxKind::NULL_VALUE,
        SyntaxKind::ENUM_VALUE,
        SyntaxKind::LIST_VALUE,
        SyntaxKind::OBJECT_VALUE,
        SyntaxKind::OBJECT_FIELD,
        SyntaxKind::VARIABLE,
        SyntaxKind::NAMED_TYPE,
        SyntaxKind::LIST_TYPE,
        SyntaxKind::NON_NULL_TYPE,
        SyntaxKind::SELECTION_SET,
        SyntaxKind::FIELD,
        SyntaxKind::ALIAS,
        SyntaxKind::ARGUMENTS,
        SyntaxKind::ARGUMENT,
        SyntaxKind::DIRECTIVES,
        SyntaxKind::DIRECTIVE,
        SyntaxKind::FRAGMENT_SPREAD,
        SyntaxKind::FRAGMENT_NAME,
        SyntaxKind::INLINE_FRAGMENT,
        SyntaxKind::TYPE_CONDITION,
    ];
    NODES.iter().position(|k| *k as u16 == kind.0).map_or(NO_CODE, |n| n as u8 + 1)
}

/// Document 01's item code of a token, by the kind that the tree has for it; none if it is ignored.
fn token_code(kind: rowan::SyntaxKind) -> Option<u8> {
    const TOKENS: [(SyntaxKind, u8); 22] = [
        (SyntaxKind::BANG, 4),
        (SyntaxKind::DOLLAR, 5),
        (SyntaxKind::AMP, 6),
        (SyntaxKind::L_PAREN, 7),
        (SyntaxKind::R_PAREN, 8),
        (SyntaxKind::SPREAD, 9),
        (SyntaxKind::COLON, 10),
        (SyntaxKind::EQ, 11),
        (SyntaxKind::AT, 12),
        (SyntaxKind::L_BRACK, 13),
        (SyntaxKind::R_BRACK, 14),
        (SyntaxKind::L_CURLY, 15),
        (SyntaxKind::PIPE, 16),
        (SyntaxKind::R_CURLY, 17),
        (SyntaxKind::IDENT, 18),
        (SyntaxKind::on_KW, 18),
        (SyntaxKind::true_KW, 18),
        (SyntaxKind::false_KW, 18),
        (SyntaxKind::null_KW, 18),
        (SyntaxKind::STRING, 19),
        (SyntaxKind::INT, 20),
        (SyntaxKind::FLOAT, 21),
    ];
    const IGNORED: [SyntaxKind; 3] = [SyntaxKind::WHITESPACE, SyntaxKind::COMMENT, SyntaxKind::COMMA];
    if IGNORED.iter().any(|k| *k as u16 == kind.0) {
        return None;
    }
    Some(TOKENS.iter().find(|(k, _)| *k as u16 == kind.0).map_or(NO_CODE, |(_, code)| *code))
}

/// The node that the frame's path leads to and that begins at `start`, places counted in the framed text.
pub fn node_at(steps: &[Step], frame: &Frame, start: usize) -> Option<Node> {
    let mut path = Vec::new();
    let mut place = 0;
    for (i, step) in steps.iter().enumerate() {
        match step {
            Step::Open(kind) => {
                if place == start && leads(&path, frame) && frame.nodes.iter().any(|node| *node as u16 == kind.0) {
                    return Some(node(&steps[i..], place));
                }
                path.push(*kind);
            }
            Step::Token(_, length) => place += length,
            Step::Close => drop(path.pop()),
        }
    }
    None
}

fn leads(path: &[rowan::SyntaxKind], frame: &Frame) -> bool {
    path.len() == frame.path.len() && path.iter().zip(frame.path).all(|(k, f)| k.0 == *f as u16)
}

/// A node that is open: its number, the place in the events where it opened, and its first token's start if it has one yet.
struct Open {
    code: u8,
    event: usize,
    start: Option<usize>,
}

/// The node that the first of the steps opens.
fn node(steps: &[Step], mut place: usize) -> Node {
    let mut open: Vec<Open> = Vec::new();
    let mut events: Vec<Item> = Vec::new();
    // Where the last token that is not ignored ended.
    let mut end = place;
    for step in steps {
        match step {
            Step::Open(kind) => {
                let code = node_code(*kind);
                open.push(Open { code, event: events.len(), start: None });
                events.push(Item { code, start: place, length: 0 });
            }
            Step::Token(kind, length) => {
                if let Some(code) = token_code(*kind) {
                    // The nodes without a token are the innermost ones.
                    for node in open.iter_mut().rev().take_while(|node| node.start.is_none()) {
                        node.start = Some(place);
                        events[node.event].start = place;
                    }
                    events.push(Item { code: 128 + code, start: place, length: *length });
                    end = place + length;
                }
                place += length;
            }
            Step::Close => {
                let node = open.pop().expect("the tree's nodes are balanced");
                let start = node.start.unwrap_or(end);
                events.push(Item { code: 64 + node.code, start, length: end - start });
            }
        }
        if open.is_empty() {
            break;
        }
    }
    Node { events, end }
}
