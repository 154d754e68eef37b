//! Document 01's answer to a case: its table of numbers and its packing, written by hand over the crate's items.
use crate::cases::{Call, INTERFACE, ITEMS, PART, UNTOUCHED};
use crate::departures::{differences, lexical_differences, Class};
use crate::grammar::{self, Entry};
use crate::items::{items_of, limit_departs, Item};

/// The longest text, in bytes.
const LONGEST: usize = 16_777_216;
/// The deepest depth limit.
const DEEPEST: u64 = 500;

/// What a text gives, whatever the limit and the tapes.
pub enum Reading<'a> {
    TooLong,
    /// Not UTF-8, from this place on.
    IllFormed(usize),
    Items(&'a str, Vec<Item>),
}

/// Reads a text. An `Err` is what the crate did that no answer follows from.
pub fn read_text(text: &[u8]) -> Result<Reading<'_>, String> {
    if text.len() > LONGEST {
        return Ok(Reading::TooLong);
    }
    match std::str::from_utf8(text) {
        Err(error) => Ok(Reading::IllFormed(error.valid_up_to())),
        Ok(text) => Ok(Reading::Items(text, items_of(text)?)),
    }
}

impl Reading<'_> {
    /// The items, Eof included; none if the text is refused.
    pub fn items(&self) -> &[Item] {
        match self {
            Reading::Items(_, items) => items,
            _ => &[],
        }
    }
}

struct Answer {
    number: u64,
    place: usize,
    /// How many of the items stay.
    items: usize,
    events: usize,
    /// What is on the event tape.
    written: Vec<Item>,
}

fn refusal(number: u64, place: usize) -> Answer {
    stopped(number, place, 0)
}

/// Without events.
fn stopped(number: u64, place: usize, items: usize) -> Answer {
    Answer { number, place, items, events: 0, written: Vec::new() }
}

/// 4 and 5, or done. `room` is in entries.
fn given(text: &str, items: &[Item], limit: u64, room: usize) -> Answer {
    for (n, item) in items.iter().enumerate() {
        if n as u64 == limit {
            return stopped(4, item.start, n);
        }
        if n == room {
            return stopped(5, item.start, n);
        }
    }
    stopped(0, text.len(), items.len())
}

fn answer_of(call: &Call, reading: &Reading) -> Answer {
    if call.entry == INTERFACE && call.depth != 0 {
        return refusal(11, 0);
    }
    if call.grammar().is_some() && call.depth > DEEPEST {
        return refusal(1, 0);
    }
    match reading {
        Reading::TooLong => refusal(2, 0),
        Reading::IllFormed(place) => refusal(3, *place),
        Reading::Items(text, items) => {
            let answer = given(text, items, call.limit, call.item_bytes / 8);
            match call.grammar() {
                Some(entry) if answer.number == 0 => sentence(call, entry, text, items),
                _ => answer,
            }
        }
    }
}

/// The crate's own limit on the text of a call: true if it reports another place than document 01 (D-1).
pub fn limit_differs(call: &Call, reading: &Reading) -> Result<bool, String> {
    match reading {
        Reading::Items(text, items) if call.limit <= items.len() as u64 => limit_departs(text, items, call.limit as usize),
        _ => Ok(false),
    }
}

/// 6 to 10, or done, where all items stay.
fn sentence(call: &Call, entry: Entry, text: &str, items: &[Item]) -> Answer {
    if let Some(fault) = items.iter().find(|item| item.code >= 64) {
        return stopped(6, fault.start, items.len());
    }
    match grammar::read(entry, text, items, call.depth) {
        Err(refusal) => stopped(refusal.number, refusal.place, items.len()),
        Ok(sentence) if sentence.events.len() > call.event_bytes / 8 => {
            Answer { number: 10, place: 0, items: items.len(), events: sentence.events.len(), written: Vec::new() }
        }
        Ok(sentence) => Answer { number: 0, place: text.len(), items: items.len(), events: sentence.events.len(), written: sentence.events },
    }
}

/// How the crate's grammar differs from document 01's on the text of a call. It knows neither 1 nor the tapes, and the token limit only as
/// the lexer's.
pub fn grammar_differences(call: &Call, reading: &Reading) -> Result<Vec<Class>, String> {
    match (call.grammar(), reading) {
        (Some(entry), Reading::Items(text, items)) if call.depth <= DEEPEST => {
            if items.iter().any(|item| item.code >= 64) {
                lexical_differences(entry, text, items, call.depth)
            } else {
                differences(entry, text, items, call.depth, &grammar::read(entry, text, items, call.depth))
            }
        }
        _ => Ok(Vec::new()),
    }
}

/// 8 bits code, 28 bits start, 28 bits length, most significant first.
fn entry(item: &Item) -> [u8; 8] {
    (u64::from(item.code) << 56 | (item.start as u64) << 28 | item.length as u64).to_be_bytes()
}

/// Appends the answer's bytes to a call of any entry but a part: 32, and both tapes.
pub fn write_answer(call: &Call, reading: &Reading, out: &mut Vec<u8>) -> Result<(), String> {
    if call.entry != ITEMS && call.entry != INTERFACE && call.grammar().is_none() {
        return Err(format!("there is no entry {}", call.entry));
    }
    let answer = answer_of(call, reading);
    out.extend(answer.number.to_be_bytes());
    out.extend((answer.place as u64).to_be_bytes());
    out.extend((answer.items as u64).to_be_bytes());
    out.extend((answer.events as u64).to_be_bytes());
    write_tape(&reading.items()[..answer.items], call.item_bytes, out);
    write_tape(&answer.written, call.event_bytes, out);
    Ok(())
}

fn write_tape(entries: &[Item], bytes: usize, out: &mut Vec<u8>) {
    let tape = out.len();
    for item in entries {
        out.extend(entry(item));
    }
    out.resize(tape + bytes, UNTOUCHED);
}

/// Appends a part, `depth` long from `limit` on, with its length in 8 bytes; empty if it passes the end, as whole numbers.
pub fn write_part(call: &Call, text: &[u8], out: &mut Vec<u8>) {
    let end = u128::from(call.limit) + u128::from(call.depth);
    let part = if end > text.len() as u128 { &[][..] } else { &text[call.limit as usize..end as usize] };
    out.extend((part.len() as u64).to_be_bytes());
    out.extend(part);
}

/// Appends the answer to a case of any entry. An `Err` also where the crate's grammar differs in a way that has no row.
pub fn write_any(call: &Call, text: &[u8], out: &mut Vec<u8>) -> Result<(), String> {
    if call.entry == PART {
        write_part(call, text, out);
        return Ok(());
    }
    let reading = read_text(text)?;
    if let Some(class) = grammar_differences(call, &reading)?.iter().find(|class| !class.starts_with("D-")) {
        return Err(format!("the crate's grammar: {class}"));
    }
    limit_differs(call, &reading)?;
    write_answer(call, &reading, out)
}
