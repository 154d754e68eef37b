//! Texts of the grammar entries: the crate's grammar held against document 01's, and `replay` against the latter's every byte.
use super::{Comparison, BATCH, MOST_TAPE, MOST_TEXT};
use crate::answers::{grammar_differences, read_text, Reading};
use crate::cases::{Call, CONSTANT, SELECTION_SET, TYPE, VALUE};
use crate::chance::Chance;
use crate::departures::{both_words, silent_named_type};
use crate::grammar;
use crate::random;
use crate::sentences::{damage, deep, sentence, wide};
use crate::token_strings::{join, vocabularies, Vocabulary, WAYS};
use std::panic::{catch_unwind, AssertUnwindSafe};

const ENTRIES: [u8; 4] = [VALUE, CONSTANT, TYPE, SELECTION_SET];
const DEEPEST: u64 = 500;
/// A text of so many items is long.
const LONG: usize = 2000;

/// What a text needs as an entry, with all the depth to be had.
struct Needs {
    entry: u8,
    items: usize,
    events: usize,
    depth: u64,
}

/// Room for so many entries, and some bytes more.
fn room(chance: &mut Chance, entries: usize) -> usize {
    (8 * entries + chance.below(8)).min(MOST_TAPE)
}

impl Needs {
    fn of(entry: u8, reading: &Reading) -> Needs {
        let mut needs = Needs { entry, items: reading.items().len(), events: 0, depth: 0 };
        if let Reading::Items(text, items) = reading {
            let kind = needs.ample().grammar().expect("a grammar entry");
            if items.iter().all(|item| item.code < 64) {
                if let Ok(sentence) = grammar::read(kind, text, items, DEEPEST) {
                    (needs.events, needs.depth) = (sentence.events.len(), sentence.depth);
                }
            }
        }
        needs
    }

    /// A call that is refused by neither limits nor tapes, if there is one.
    fn ample(&self) -> Call {
        let room = |entries: usize| (8 * (entries + 1)).min(MOST_TAPE);
        Call { entry: self.entry, limit: u64::MAX, depth: DEEPEST, item_bytes: room(self.items), event_bytes: room(self.events) }
    }

    /// One call, with any small depth as often as with all, and a tape of events that is short now and then.
    fn one_call(&self, chance: &mut Chance) -> Vec<Call> {
        let depth = if chance.once_in(2) { DEEPEST } else { chance.below(4) as u64 };
        let events = match chance.below(4) {
            0 => chance.below(self.events + 1),
            1 => self.events + 1,
            _ => self.events,
        };
        vec![Call { depth, item_bytes: room(chance, self.items), event_bytes: room(chance, events), ..self.ample() }]
    }

    /// Each small depth, and each limit and room from just below what is needed to just above, alone and some together.
    fn many_calls(&self, chance: &mut Chance) -> Vec<Call> {
        let ample = self.ample();
        let mut calls = vec![ample, Call { depth: DEEPEST + 1, ..ample }];
        calls.extend((0..4).map(|depth| Call { depth, ..ample }));
        for n in self.items.saturating_sub(1)..=self.items + 1 {
            calls.push(Call { limit: n as u64, ..ample });
            calls.push(Call { item_bytes: room(chance, n), ..ample });
        }
        for n in self.events.saturating_sub(2)..=self.events + 1 {
            calls.push(Call { event_bytes: room(chance, n), ..ample });
        }
        calls.push(self.mixed_call(chance));
        calls
    }

    /// Depths, limits and rooms around what is needed, for texts that need more; one limit and one room of each for long texts.
    fn near_calls(&self, chance: &mut Chance) -> Vec<Call> {
        let ample = self.ample();
        let mut calls = vec![ample];
        for depth in [self.depth.saturating_sub(1), self.depth, self.depth + 1] {
            calls.push(Call { depth, ..ample });
        }
        for n in self.near(chance, self.items) {
            calls.push(Call { limit: n as u64, ..ample });
            calls.push(Call { item_bytes: room(chance, n), ..ample });
        }
        for n in self.near(chance, self.events) {
            calls.push(Call { event_bytes: room(chance, n), ..ample });
        }
        calls.push(self.mixed_call(chance));
        calls
    }

    fn near(&self, chance: &mut Chance, count: usize) -> std::ops::RangeInclusive<usize> {
        if self.items < LONG {
            return count.saturating_sub(1)..=count + 1;
        }
        let one = chance.from(count.saturating_sub(1), count + 1);
        one..=one
    }

    /// All at once, anywhere from nothing to a little more than is needed.
    fn mixed_call(&self, chance: &mut Chance) -> Call {
        let limit = chance.below(2 * self.items + 2) as u64;
        let entries = chance.below(2 * self.items + 2);
        let item_bytes = room(chance, entries);
        let entries = chance.below(self.events + 2);
        let event_bytes = room(chance, entries);
        let depth = if chance.once_in(8) { DEEPEST + 1 + chance.next() % 4 } else { chance.below(self.depth as usize + 2) as u64 };
        Call { entry: self.entry, limit, depth, item_bytes, event_bytes }
    }
}

impl Comparison {
    /// One text as an entry, with the calls that `choose` gives for what it needs.
    fn sentence(&mut self, entry: u8, text: &[u8], choose: impl FnOnce(&Needs, &mut Chance) -> Vec<Call>) -> Result<(), String> {
        let reading = match catch_unwind(AssertUnwindSafe(|| read_text(text))) {
            Ok(Ok(reading)) => reading,
            // The comparison of items says which.
            _ => return Err(format!("the crate's lexer fails at {}", crate::findings::notation(text))),
        };
        self.texts += 1;
        for item in reading.items() {
            self.codes[usize::from(item.code)] += 1;
        }
        let needs = Needs::of(entry, &reading);
        let mut held: Vec<u64> = Vec::new();
        for call in choose(&needs, &mut self.chance) {
            if !held.contains(&call.depth) {
                held.push(call.depth);
                self.hold(&call, text, &reading);
            }
            self.call(&call, text, &reading)?;
        }
        if self.cases.len() > BATCH || self.expected.len() > BATCH {
            self.flush()?;
        }
        Ok(())
    }

    /// The crate's grammar against document 01's.
    fn hold(&mut self, call: &Call, text: &[u8], reading: &Reading) {
        for class in classes(call, reading) {
            self.findings.add(class, call, text, String::new());
        }
    }
}

fn classes(call: &Call, reading: &Reading) -> Vec<String> {
    match catch_unwind(AssertUnwindSafe(|| grammar_differences(call, reading))) {
        Ok(Ok(classes)) => classes.iter().map(|class| class.to_string()).collect(),
        Ok(Err(words)) => vec![format!("the crate's grammar, {words}")],
        Err(_) => vec!["the crate's grammar panics".to_string()],
    }
}

/// The class again, if the crate's grammar differs so on this text; with what both say.
pub fn again(class: &str, call: &Call, text: &[u8]) -> Option<(String, String)> {
    let reading = read_text(text).ok()?;
    let (Some(entry), Reading::Items(whole, items)) = (call.grammar(), &reading) else {
        return None;
    };
    classes(call, &reading).iter().find(|found| *found == class)?;
    let words = catch_unwind(|| both_words(entry, whole, items, call.depth)).ok()?.unwrap_or_default();
    Some((class.to_string(), words))
}

fn one_vocabulary(c: &mut Comparison, vocabulary: &Vocabulary) -> Result<(), String> {
    vocabulary.each(|string, size| {
        if size > vocabulary.detail {
            let way = c.chance.below(WAYS);
            let text = join(&mut c.chance, way, string);
            return c.sentence(vocabulary.entry, text.as_bytes(), Needs::one_call);
        }
        for way in 0..WAYS {
            let text = join(&mut c.chance, way, string);
            c.sentence(vocabulary.entry, text.as_bytes(), Needs::many_calls)?;
        }
        Ok(())
    })
}

fn joined(chance: &mut Chance, tokens: &[String]) -> String {
    let way = chance.below(WAYS);
    join(chance, way, &tokens.iter().map(String::as_str).collect::<Vec<_>>())
}

/// A sentence as it is, then with tokens damaged, then with bytes.
fn one_sentence(c: &mut Comparison, entry: u8, mut tokens: Vec<String>) -> Result<(), String> {
    let text = joined(&mut c.chance, &tokens);
    c.sentence(entry, text.as_bytes(), Needs::near_calls)?;
    for _ in 0..3 {
        damage(&mut c.chance, &mut tokens);
        let text = joined(&mut c.chance, &tokens);
        c.sentence(entry, text.as_bytes(), Needs::near_calls)?;
    }
    let mut bytes = text.into_bytes();
    random::damage(&mut c.chance, &mut bytes);
    c.sentence(entry, &bytes, Needs::near_calls)
}

fn wide_sentences(c: &mut Comparison, times: usize) -> Result<(), String> {
    for i in 0..times {
        for entry in [VALUE, CONSTANT, SELECTION_SET] {
            let plain = i % 2 == 0;
            let siblings = if plain { c.chance.from(49_000, 101_000) } else { c.chance.from(1_000, 10_000) };
            let mut tokens = wide(&mut c.chance, entry, siblings, plain);
            for _ in 0..2 {
                let text = joined(&mut c.chance, &tokens);
                if text.len() <= MOST_TEXT {
                    c.sentence(entry, text.as_bytes(), Needs::near_calls)?;
                }
                damage(&mut c.chance, &mut tokens);
            }
        }
    }
    Ok(())
}

pub fn grammar_texts(c: &mut Comparison, quick: bool) -> Result<(), String> {
    let times = |few, many| if quick { few } else { many };
    for vocabulary in vocabularies(quick) {
        let name = format!("grammar, {}: up to {} of {} tokens", vocabulary.name, vocabulary.most, vocabulary.tokens.len());
        c.set(&name, |c| one_vocabulary(c, &vocabulary))?;
    }
    c.set("grammar, random: sentences, whole and damaged", |c| {
        for i in 0..times(8_000, 100_000) {
            let entry = ENTRIES[i % 4];
            let tokens = sentence(&mut c.chance, entry);
            one_sentence(c, entry, tokens)?;
        }
        Ok(())
    })?;
    c.set("grammar, random: deep sentences", |c| {
        for i in 0..times(400, 4_000) {
            let levels = if i % 2 == 0 { c.chance.from(498, 502) } else { c.chance.from(1, 60) };
            let tokens = deep(&mut c.chance, ENTRIES[i / 2 % 4], levels);
            one_sentence(c, ENTRIES[i / 2 % 4], tokens)?;
        }
        Ok(())
    })?;
    c.set("grammar, random: very many siblings", |c| wide_sentences(c, times(2, 24)))?;
    c.set("grammar, a document for D-4", |c| {
        if let Some((class, document)) = silent_named_type() {
            let call = Call { entry: TYPE, limit: u64::MAX, depth: 0, item_bytes: 0, event_bytes: 0 };
            c.findings.add(class.to_string(), &call, document.as_bytes(), "the crate accepts this document".to_string());
        }
        Ok(())
    })
}
