//! What the crate's parser says of a text held against document 01's answer, and the classes of the differences. A class that begins with an
//! identifier has a row in docs/DIFFERENCES.md.
use crate::grammar::{self, ignored, Due, Entry, Refusal, Sentence};
use crate::items::{error_number, Item};
use crate::parser::{event_words, said_words, says, says_of_faulty, Outcome, Said};
use apollo_parser::Parser;

/// What differs. It begins with the row's identifier if there is one.
pub type Class = &'static str;

/// Holds the crate against the answer to a text whose items have no error.
pub fn differences(entry: Entry, text: &str, items: &[Item], depth: u64, judged: &Result<Sentence, Refusal>) -> Result<Vec<Class>, String> {
    let tokens: Vec<&Item> = items.iter().filter(|item| !ignored(item)).collect();
    let said = says(entry, text, &tokens, depth)?;
    let mut found = Vec::new();
    found.extend(class(entry, text, items, depth, judged, &said)?);
    if said.goes_on {
        found.push(GOES_ON);
    }
    Ok(found)
}

const OBJECT_COLON: Class = "D-2, an object field without `:`";
const LIST_END: Class = "D-3, a list cut by Eof has no error of its own";
const NO_NAMED_TYPE: Class = "D-4, no name where a named type is due";
const GOES_ON: Class = "D-5, the crate goes on after its first error";
const ARGUMENT_COLON: Class = "D-6, an argument without `:`";
const SPREAD: Class = "D-7, the place of what cannot follow a spread";
const COMMA: Class = "D-8, a comma between a name and its `:`, or after a spread";
const EVENTS: Class = "events of an accepted text";
const ACCEPTANCE: Class = "acceptance";
const REFUSAL: Class = "number or place of a refusal";
const LEXICAL: Class = "an error item that the crate's parser does not report";

fn same(judged: &Result<Sentence, Refusal>, outcome: &Outcome) -> bool {
    match (judged, outcome) {
        (Ok(sentence), Outcome::Accepts(events)) => sentence.events == *events,
        (Err(refusal), Outcome::Refuses { number, place }) => (refusal.number, refusal.place) == (*number, *place),
        _ => false,
    }
}

fn class(entry: Entry, text: &str, items: &[Item], depth: u64, judged: &Result<Sentence, Refusal>, said: &Said) -> Result<Option<Class>, String> {
    if same(judged, &said.outcome) {
        return Ok(silent_list(judged, said).then_some(LIST_END));
    }
    // It passes what is due, and accepts the text or finds something later.
    let later = |from: usize| match said.outcome {
        Outcome::Accepts(_) => true,
        Outcome::Refuses { place, .. } => place >= from,
    };
    if let Err(refusal) = judged {
        match refusal.due {
            Due::ObjectColon if later(refusal.place) => return Ok(Some(OBJECT_COLON)),
            Due::ArgumentColon if later(refusal.place) => return Ok(Some(ARGUMENT_COLON)),
            Due::AfterSpread if said.outcome == (Outcome::Refuses { number: 9, place: token_before(items, refusal.place) }) => {
                return Ok(Some(SPREAD));
            }
            _ => {}
        }
    }
    if items.iter().any(|item| item.code == 3) {
        let (text, items) = without_commas(text, items);
        let tokens: Vec<&Item> = items.iter().filter(|item| !ignored(item)).collect();
        let twin = says(entry, &text, &tokens, depth)?;
        if twin.outcome != said.outcome && class(entry, &text, &items, depth, judged, &twin)?.is_none_or(|class| class.starts_with("D-")) {
            return Ok(Some(COMMA));
        }
    }
    Ok(Some(match (judged, &said.outcome) {
        (Ok(_), Outcome::Accepts(_)) => EVENTS,
        (Err(_), Outcome::Refuses { .. }) => REFUSAL,
        _ => ACCEPTANCE,
    }))
}

/// The text ends in a list, and the crate's first error is of what is around it.
fn silent_list(judged: &Result<Sentence, Refusal>, said: &Said) -> bool {
    let message = said.errors.first().map_or("", |error| error.message());
    matches!(judged, Err(refusal) if refusal.due == Due::ListEnd) && ["expected R_PAREN", "expected R_CURLY"].iter().any(|m| message.starts_with(m))
}

/// The start of the last token before a place.
fn token_before(items: &[Item], place: usize) -> usize {
    items.iter().rev().find(|item| !ignored(item) && item.start < place).map_or(0, |item| item.start)
}

/// The same tokens at the same places, with a space for each comma that was an item.
fn without_commas(text: &str, items: &[Item]) -> (String, Vec<Item>) {
    let mut bytes = text.as_bytes().to_vec();
    let mut items = items.to_vec();
    for item in items.iter_mut().filter(|item| item.code == 3) {
        bytes[item.start] = b' ';
        item.code = 1;
    }
    (String::from_utf8(bytes).expect("a comma is a character of its own"), items)
}

/// Holds the crate against 6: it has to report the first error item too, at its place; D-5 says that other errors may come before.
pub fn lexical_differences(entry: Entry, text: &str, items: &[Item], depth: u64) -> Result<Vec<Class>, String> {
    let Some(fault) = items.iter().find(|item| item.code >= 64) else {
        return Ok(Vec::new());
    };
    let tokens: Vec<&Item> = items.iter().filter(|item| !ignored(item)).collect();
    let said = says_of_faulty(entry, text, &tokens, depth)?;
    let lexical = said.errors.iter().find(|error| !error.is_limit() && error_number(error.message()).is_some());
    match lexical {
        Some(error) if error.index() == said.before + fault.start && error_number(error.message()) == Some(fault.code - 64) => {
            Ok(if said.errors[0] == *error { Vec::new() } else { vec![GOES_ON] })
        }
        _ => Ok(vec![LEXICAL]),
    }
}

/// A document that the crate accepts without an error, though a named type is due in it. In a frame D-4 is not met: no entry's rule calls
/// `named_type` without having seen a name.
pub fn silent_named_type() -> Option<(Class, &'static str)> {
    let document = "schema{query:}";
    (Parser::new(document).parse().errors().len() == 0).then_some((NO_NAMED_TYPE, document))
}

fn judged_words(judged: &Result<Sentence, Refusal>) -> String {
    match judged {
        Ok(sentence) => format!("0 with depth {} and events {}", sentence.depth, event_words(&sentence.events)),
        Err(refusal) => format!("{} at {}", refusal.number, refusal.place),
    }
}

/// What both say of a text, in words.
pub fn both_words(entry: Entry, text: &str, items: &[Item], depth: u64) -> Result<String, String> {
    let tokens: Vec<&Item> = items.iter().filter(|item| !ignored(item)).collect();
    let said = says(entry, text, &tokens, depth)?;
    let judged = match items.iter().find(|item| item.code >= 64) {
        Some(fault) => format!("6 at {}", fault.start),
        None => judged_words(&grammar::read(entry, text, items, depth)),
    };
    Ok(format!("document 01 {judged}\n    the crate   {}", said_words(&said)))
}
