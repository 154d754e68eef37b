//! Differences by class, with the smallest case of each.
use crate::cases::{Call, CONSTANT, INTERFACE, PART, SELECTION_SET, TYPE, UNTOUCHED, VALUE};
use std::collections::BTreeMap;
use std::fmt::Write;

/// So many bytes of a text are printed.
const MOST_SHOWN: usize = 500;

pub struct Finding {
    pub times: u64,
    pub call: Call,
    pub text: Vec<u8>,
    pub words: String,
}

#[derive(Default)]
pub struct Findings(pub BTreeMap<String, Finding>);

impl Findings {
    pub fn add(&mut self, class: String, call: &Call, text: &[u8], words: String) {
        let finding = self.0.entry(class).or_insert_with(|| Finding { times: 0, call: *call, text: text.to_vec(), words: words.clone() });
        finding.times += 1;
        if (text.len(), text) < (finding.text.len(), &finding.text[..]) {
            (finding.call, finding.text, finding.words) = (*call, text.to_vec(), words);
        }
    }

    /// The classes that have no row. A class with a row begins with the row's identifier, up to a comma.
    pub fn without_row(&self, rows: &[String]) -> usize {
        self.0.keys().filter(|class| !rows.iter().any(|row| class.starts_with(&format!("{row},")))).count()
    }

    pub fn print(&self) {
        for (class, finding) in &self.0 {
            println!(
                "\n{}: {} times. The smallest:\n    {} {}\n    {}",
                class,
                finding.times,
                shown(&finding.text),
                call_words(&finding.call),
                finding.words
            );
        }
    }
}

/// A text in words, a long one in part: the seed gives it again.
fn shown(text: &[u8]) -> String {
    match text.len() {
        0..=MOST_SHOWN => notation(text),
        length => format!("{} and so on, {length} bytes in all,", notation(&text[..MOST_SHOWN])),
    }
}

fn number(bytes: &[u8], at: usize) -> u64 {
    bytes[at..at + 8].iter().fold(0, |v, b| v << 8 | u64::from(*b))
}

/// In what two answers to a call differ, first field first. The first is the one expected.
pub fn class_of(call: &Call, expected: &[u8], given: &[u8]) -> String {
    if call.entry == PART {
        return "a part".to_string();
    }
    let fields = ["number", "place", "item count", "event count"];
    for (i, field) in fields.iter().enumerate() {
        let (e, g) = (number(expected, 8 * i), number(given, 8 * i));
        if e != g {
            return if i == 0 { format!("number {e} expected, {g} given") } else { format!("{field}, with number {}", number(expected, 0)) };
        }
    }
    let items = number(expected, 16) as usize;
    // On 10 the event count is of events needed, and none is on the tape.
    let events = if number(expected, 0) == 0 { number(expected, 24) as usize } else { 0 };
    entry_class("item", items, &expected[32..], &given[32..])
        .or_else(|| entry_class("event", events, &expected[32 + call.item_bytes..], &given[32 + call.item_bytes..]))
        .unwrap_or("tape bytes past the last entry".to_string())
}

/// In what the first so many entries of two tapes differ.
fn entry_class(what: &str, count: usize, expected: &[u8], given: &[u8]) -> Option<String> {
    for at in (0..count).map(|i| 8 * i) {
        let (e, g) = (number(expected, at), number(given, at));
        if e >> 56 != g >> 56 {
            return Some(format!("{what} {} expected, {} given", e >> 56, g >> 56));
        }
        if e != g {
            return Some(format!("start or length of {what} {}", e >> 56));
        }
    }
    None
}

/// An answer in words: its number, place, counts and entries.
pub fn answer_words(call: &Call, answer: &[u8]) -> String {
    if call.entry == PART {
        return notation(&answer[8..]);
    }
    let (number_, place, count, events) = (number(answer, 0), number(answer, 8), number(answer, 16), number(answer, 24));
    let (items_tape, events_tape) = answer[32..].split_at(call.item_bytes);
    let mut words = format!("{number_} {place} {count}");
    let mut touched = entry_words(count as usize, items_tape, &mut words);
    if events != 0 {
        let _ = write!(words, " and {events} events");
    }
    touched |= entry_words(if number_ == 0 { events as usize } else { 0 }, events_tape, &mut words);
    if touched {
        words.push_str(" and other bytes touched");
    }
    words
}

/// The first so many entries of a tape, not all if they are many. True if other bytes are touched.
fn entry_words(count: usize, tape: &[u8], words: &mut String) -> bool {
    let listed = count.min(tape.len() / 8);
    for i in 0..listed.min(24) {
        let entry = number(tape, 8 * i);
        let _ = write!(words, "{} {} {} {}", if i == 0 { ":" } else { "," }, entry >> 56, entry >> 28 & 0xFFF_FFFF, entry & 0xFFF_FFFF);
    }
    if listed > 24 {
        words.push_str(", ...");
    }
    tape[8 * listed..].iter().any(|b| *b != UNTOUCHED)
}

fn call_words(call: &Call) -> String {
    let rest = format!("limit {} tape {} events {}", call.limit, call.item_bytes, call.event_bytes);
    match call.entry {
        PART => format!("part {} {}", call.limit, call.depth),
        INTERFACE => format!("interface {} {rest}", call.depth),
        VALUE => format!("as value, depth {} {rest}", call.depth),
        CONSTANT => format!("as constant, depth {} {rest}", call.depth),
        TYPE => format!("as type, depth {} {rest}", call.depth),
        SELECTION_SET => format!("as selection set, depth {} {rest}", call.depth),
        _ => rest,
    }
}

/// A text in the notation of the lists in cases/.
pub fn notation(text: &[u8]) -> String {
    if text.is_empty() {
        return "empty".to_string();
    }
    let mut words = String::new();
    for chunk in text.utf8_chunks() {
        let mut plain = false;
        for c in chunk.valid().chars() {
            let shown = (' '..='~').contains(&c) && c != '`';
            if shown != plain {
                words.push_str(if shown && !words.is_empty() { " `" } else { "`" });
                plain = shown;
            }
            match c {
                _ if shown => words.push(c),
                '\n' => words.push_str(" LF"),
                '\r' => words.push_str(" CR"),
                '\t' => words.push_str(" TAB"),
                c => {
                    let _ = write!(words, " U+{:X}", c as u32);
                }
            }
        }
        if plain {
            words.push('`');
        }
        for b in chunk.invalid() {
            let _ = write!(words, " hex({b:02X})");
        }
    }
    words.trim_start().to_string()
}
