//! What the crate's parser says of a text in its frame.
use crate::frames::{frame, Frame};
use crate::grammar::Entry;
use crate::items::Item;
use crate::trees::{node_at, Node};
use apollo_parser::{Error, Parser};

#[derive(Clone, PartialEq, Eq)]
pub enum Outcome {
    /// Without an error, and the text fills its frame.
    Accepts(Vec<Item>),
    Refuses {
        number: u64,
        place: usize,
    },
}

/// What the crate does with a text.
pub struct Said {
    pub outcome: Outcome,
    pub errors: Vec<Error>,
    /// It has more than one error, with the whole frame around the text.
    pub goes_on: bool,
    /// The text's first place in the document that the crate was given.
    pub before: usize,
}

/// Runs the crate's parser on the text in its frame. A frame is cut where nothing follows the text.
fn says_in(entry: Entry, text: &str, tokens: &[&Item], depth: u64, cut: bool) -> Result<Said, String> {
    let frame = frame(entry, depth);
    let document = format!("{}{}{}", frame.before, text, if cut { "" } else { frame.after });
    let tree = Parser::new(&document).recursion_limit((depth + frame.depth) as usize).parse();
    let before = frame.before.len();
    let errors: Vec<Error> = tree.errors().cloned().collect();
    let node = node_at(tree.green().steps(), frame, before + tokens[0].start);
    let outcome = outcome(text, tokens, frame, errors.first(), node)?;
    Ok(Said { outcome, goes_on: errors.len() > 1, errors, before })
}

/// The crate refuses where its first error is, or already at the first token that the text's node leaves over.
fn outcome(text: &str, tokens: &[&Item], frame: &Frame, error: Option<&Error>, node: Option<Node>) -> Result<Outcome, String> {
    let before = frame.before.len();
    let over = match &node {
        None => Some(tokens[0].start),
        Some(node) => tokens.iter().find(|t| t.length > 0 && before + t.start >= node.end).map(|t| t.start),
    };
    let refusal = match error {
        None => None,
        Some(error) => {
            let place = error.index().checked_sub(before).ok_or(format!("an error in front of the text: {error}"))?;
            // What follows the text in the frame stands for Eof.
            Some((number_of(error), place.min(text.len())))
        }
    };
    match (refusal, over, node) {
        (Some((number, place)), over, _) if over.is_none_or(|over| place <= over) => Ok(Outcome::Refuses { number, place }),
        (_, Some(place), _) => Ok(Outcome::Refuses { number: 9, place }),
        (_, None, Some(node)) => Ok(Outcome::Accepts(moved(node.events, before))),
        (_, None, None) => unreachable!("without a node the first token is left over"),
    }
}

/// Document 01's number of an error of the crate's grammar.
fn number_of(error: &Error) -> u64 {
    if error.is_limit() {
        7
    } else if error.message() == "unexpected variable value in a Const context" {
        8
    } else {
        9
    }
}

fn moved(mut events: Vec<Item>, before: usize) -> Vec<Item> {
    for event in &mut events {
        event.start -= before;
    }
    events
}

/// What the crate does with a text without lexical errors. Where its frame's end is where it refuses, nothing follows the text: only then does
/// the crate meet Eof where document 01 does.
pub fn says(entry: Entry, text: &str, tokens: &[&Item], depth: u64) -> Result<Said, String> {
    let said = says_in(entry, text, tokens, depth, false)?;
    match said.outcome {
        Outcome::Refuses { place, .. } if place == text.len() => Ok(Said { goes_on: said.goes_on, ..says_in(entry, text, tokens, depth, true)? }),
        _ => Ok(said),
    }
}

/// Of a text with lexical errors: it may take in what follows, so nothing does.
pub fn says_of_faulty(entry: Entry, text: &str, tokens: &[&Item], depth: u64) -> Result<Said, String> {
    says_in(entry, text, tokens, depth, true)
}

pub fn event_words(events: &[Item]) -> String {
    events.iter().map(|e| format!("{} {} {}", e.code, e.start, e.length)).collect::<Vec<_>>().join(", ")
}

pub fn said_words(said: &Said) -> String {
    let mut words = match &said.outcome {
        Outcome::Accepts(events) => format!("accepts with events {}", event_words(events)),
        Outcome::Refuses { number, place } => format!("refuses with {number} at {place}"),
    };
    for error in said.errors.iter().take(8) {
        words.push_str(&format!("; {:?} at {}", error.message(), error.index() as i64 - said.before as i64));
    }
    words
}
