//! What the tests share: a reading as plain numbers.
use paumelu::{Answer, Item, Items};

/// Code, start and length.
pub type Entry = (u8, usize, usize);

pub fn entry(item: Item) -> Entry {
    (item.code(), item.start(), item.len())
}

pub fn entries(items: Items<'_>) -> Vec<Entry> {
    items.iter().map(entry).collect()
}

pub fn answer(number: u64, place: usize, items: usize) -> Answer {
    Answer { number, place: place as u64, items: items as u64, events: 0 }
}

/// All items of a text that is not refused.
pub fn all(text: &[u8]) -> Vec<Entry> {
    let mut tape = paumelu::tape_for(text);
    let (given, items) = paumelu::read_items(text, u64::MAX, &mut tape);
    assert_eq!(given, answer(paumelu::DONE, text.len(), items.len()), "{text:?}");
    entries(items)
}
