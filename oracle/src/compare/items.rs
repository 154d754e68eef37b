//! Texts for reading items, and parts.
use super::{alone, Comparison, BATCH, MOST_TAPE, MOST_TEXT};
use crate::answers::{read_text, write_part};
use crate::cases::{Call, INTERFACE, ITEMS, PART};
use crate::chance::Chance;
use crate::exhaustive::{each_escape, each_scalar, families};
use crate::pipe::Replay;
use crate::random;
use std::panic::{catch_unwind, AssertUnwindSafe};

impl Comparison {
    /// One text with the calls that `choose` gives for its item count (0 if the text is refused).
    fn text(&mut self, text: &[u8], choose: impl FnOnce(&mut Chance, u64, usize) -> Vec<Call>) -> Result<(), String> {
        let reading = match catch_unwind(AssertUnwindSafe(|| read_text(text))) {
            Ok(Ok(reading)) => reading,
            Ok(Err(words)) => return self.crate_fails(&plain(0), text, "the crate contradicts itself", words),
            Err(_) => return self.crate_fails(&plain(0), text, "the crate panics", String::new()),
        };
        self.texts += 1;
        for item in reading.items() {
            self.codes[usize::from(item.code)] += 1;
        }
        for call in choose(&mut self.chance, self.texts, reading.items().len()) {
            self.call(&call, text, &reading)?;
        }
        if self.cases.len() > BATCH || self.expected.len() > BATCH {
            self.flush()?;
        }
        Ok(())
    }
}

/// No limit, and room for one item more than there are.
fn plain(count: usize) -> Call {
    Call { entry: ITEMS, limit: u64::MAX, depth: 0, item_bytes: (8 * (count + 1)).min(MOST_TAPE), event_bytes: 0 }
}

/// One call, every fourth through the C interface, with bytes to spare that it must not touch; for every eighth text a second one with
/// a limit and a tape that may be short.
fn few_calls(chance: &mut Chance, turn: u64, count: usize) -> Vec<Call> {
    let mut call = plain(count);
    call.entry = if turn % 4 == 3 { INTERFACE } else { ITEMS };
    call.item_bytes += (turn % 8) as usize;
    call.event_bytes = (turn % 3) as usize;
    let mut calls = vec![call];
    if turn % 8 == 0 {
        calls.push(Call { limit: chance.below(count + 2) as u64, item_bytes: chance.below(8 * count + 17), ..call });
    }
    calls
}

/// Limits and rooms around the item count, together and apart, and anywhere below it.
fn many_calls(chance: &mut Chance, turn: u64, count: usize) -> Vec<Call> {
    let mut calls = few_calls(chance, turn, count);
    let ample = plain(count);
    let room = |chance: &mut Chance, entries: usize| (8 * entries + chance.below(8)).min(MOST_TAPE);
    for n in count.saturating_sub(2)..=count + 2 {
        calls.push(Call { limit: n as u64, ..ample });
        calls.push(Call { item_bytes: room(chance, n), ..ample });
        calls.push(Call { limit: n as u64, item_bytes: room(chance, n), ..ample });
    }
    calls.extend(below_calls(chance, count));
    calls
}

/// For long texts: a few of these.
fn some_calls(chance: &mut Chance, turn: u64, count: usize) -> Vec<Call> {
    let mut calls = few_calls(chance, turn, count);
    let near = chance.from(count.saturating_sub(1), count + 1);
    calls.push(Call { limit: near as u64, ..plain(count) });
    calls.push(Call { item_bytes: (8 * near).min(MOST_TAPE), ..plain(count) });
    calls.extend(below_calls(chance, count));
    for call in &mut calls {
        call.item_bytes = call.item_bytes.min(MOST_TAPE);
    }
    calls
}

fn below_calls(chance: &mut Chance, count: usize) -> Vec<Call> {
    let ample = plain(count);
    let limit = chance.below(count + 1) as u64;
    let item_bytes = chance.below(8 * count + 8).min(MOST_TAPE);
    let mut calls = vec![Call { limit, ..ample }, Call { item_bytes, ..ample }, Call { limit, item_bytes, ..ample }];
    if chance.once_in(8) {
        let depth = if chance.once_in(2) { chance.from(1, 8) as u64 } else { chance.next() | 1 };
        calls.push(Call { entry: INTERFACE, limit, depth, item_bytes, event_bytes: chance.below(17) });
    }
    calls
}

/// Parts of small texts: starts and lengths around the end, and where their sum passes 64 bits.
fn parts(c: &mut Comparison, times: usize) -> Result<(), String> {
    for _ in 0..times {
        let text = random::bytes(&mut c.chance, 12);
        let number = |chance: &mut Chance| match chance.below(4) {
            0 => (chance.below(6) as u64).wrapping_neg(),
            1 => (chance.below(6) as u64) << 32 | chance.below(16) as u64,
            _ => chance.below(text.len() + 3) as u64,
        };
        let (limit, depth) = (number(&mut c.chance), number(&mut c.chance));
        let call = Call { entry: PART, limit, depth, item_bytes: 0, event_bytes: 0 };
        c.texts += 1;
        let answer = c.expected.len();
        write_part(&call, &text, &mut c.expected);
        c.mark(&call, &text, answer);
        if c.cases.len() > BATCH {
            parts_flush(c)?;
        }
    }
    parts_flush(c)
}

/// An answer's length is not known beforehand if it is wrong: then some are tried alone, the shortest texts first.
fn parts_flush(c: &mut Comparison) -> Result<(), String> {
    let answers = Replay::start(&c.path)?.last_answers(c.cases.clone());
    if answers.as_ref() != Ok(&c.expected) {
        c.marks.sort_by_key(|mark| mark.text.len());
        let mut found = 0;
        for mark in &c.marks {
            let text = &c.cases[mark.text.clone()];
            if let Some((class, words)) = alone(&c.path, &mark.call, text) {
                c.findings.add(class, &mark.call, text, words);
                found += 1;
            }
            if found == 4 {
                break;
            }
        }
        if found == 0 {
            return Err("parts differ together, and none alone".to_string());
        }
    }
    c.cases.clear();
    c.expected.clear();
    c.marks.clear();
    Ok(())
}

fn random_texts(c: &mut Comparison, quick: bool) -> Result<(), String> {
    let times = |few, many| if quick { few } else { many };
    c.set("items, random: soups", |c| {
        for _ in 0..times(150_000, 1_000_000) {
            let text = random::soup(&mut c.chance, 40);
            c.text(&text, many_calls)?;
        }
        Ok(())
    })?;
    c.set("items, random: bytes", |c| {
        for _ in 0..times(150_000, 1_000_000) {
            let text = random::bytes(&mut c.chance, 12);
            c.text(&text, many_calls)?;
        }
        Ok(())
    })?;
    c.set("items, random: queries, whole and damaged", |c| {
        for _ in 0..times(8_000, 60_000) {
            let mut text = random::query(&mut c.chance);
            c.text(&text, many_calls)?;
            for _ in 0..3 {
                random::damage(&mut c.chance, &mut text);
                c.text(&text, many_calls)?;
            }
        }
        Ok(())
    })?;
    c.set("items, random: long texts", |c| {
        for i in 0..times(50, 1000) {
            let size = if i % 10 == 0 { 900_000 } else { c.chance.from(10_000, 150_000) };
            let mut text = random::long(&mut c.chance, size);
            text.truncate(MOST_TEXT);
            c.text(&text, some_calls)?;
        }
        Ok(())
    })?;
    c.set("items, random: parts (document 01, not the crate)", |c| parts(c, times(100_000, 500_000)))
}

pub fn item_texts(c: &mut Comparison, quick: bool) -> Result<(), String> {
    for family in families(quick) {
        let name = format!("items, {}: up to {} of {} pieces", family.name, family.most(), family.pieces());
        c.set(&name, |c| family.each(|text| c.text(text, few_calls)))?;
    }
    c.set("items, each scalar value", |c| each_scalar(quick, |text| c.text(text, few_calls)))?;
    c.set("items, each number in an escape", |c| each_escape(quick, |text| c.text(text, few_calls)))?;
    random_texts(c, quick)
}
