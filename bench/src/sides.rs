//! The two sides. Each makes all items of a text, and makes and frees what holds them. Then the same for the UTF-8 test alone.
use crate::items::items_of;
use apollo_parser::Lexer;
use std::hint::black_box;

/// Reads a text and says how much it found.
pub type Side = fn(&str) -> usize;

/// The crate: a vector of tokens and one of errors. How many there are.
#[inline(never)]
pub fn crate_lex(text: &str) -> usize {
    let (tokens, errors) = black_box(Lexer::new(text).lex());
    tokens.len() + errors.len()
}

/// Ours: a tape with room for the items of any text of that length. How many there are.
#[inline(never)]
pub fn our_read(text: &str) -> usize {
    let mut tape = paumelu::tape_for(text.as_bytes());
    let (answer, items) = paumelu::read_items(text.as_bytes(), u64::MAX, black_box(&mut tape));
    assert_eq!(answer.number, paumelu::DONE);
    items.len()
}

/// UTF-8 by Rust's own library. How many bytes are well-formed.
#[inline(never)]
pub fn std_utf8(text: &str) -> usize {
    std::str::from_utf8(black_box(text.as_bytes())).map_or(0, str::len)
}

/// UTF-8 by ours: with limit 0 the reader tests the text and gives no item.
#[inline(never)]
pub fn our_utf8(text: &str) -> usize {
    let (answer, _) = paumelu::read_items(text.as_bytes(), 0, &mut []);
    assert_eq!(answer.number, paumelu::LIMIT);
    text.len()
}

/// That both do the same work: panics unless they give the same items.
pub fn agree(text: &str) {
    let mut tape = paumelu::tape_for(text.as_bytes());
    let (_, ours) = paumelu::read_items(text.as_bytes(), u64::MAX, &mut tape);
    let theirs = items_of(text).expect("the crate's items are those of document 01");
    let same = theirs.iter().map(|item| (item.code, item.start, item.length)).eq(ours.iter().map(|item| (item.code(), item.start(), item.len())));
    assert!(same, "the two sides give other items");
}
