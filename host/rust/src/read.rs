//! The call of the C interface.
use crate::items::{Items, ENTRY};

/// The longest text that is read, in bytes.
pub const LONGEST: usize = 16_777_216;

/// All items are on the tape; place: the text's length; items: how many, Eof included.
pub const DONE: u64 = 0;
/// The text has over [`LONGEST`] bytes; the tape is unchanged.
pub const TOO_LONG: u64 = 2;
/// Place: the first byte where no well-formed sequence begins; the tape is unchanged.
pub const NOT_UTF8: u64 = 3;
/// So many items as the limit are on the tape and Eof is not among them; place: the first unread byte.
pub const LIMIT: u64 = 4;
/// The tape is full and an item is due; place: the first unread byte.
pub const TAPE_FULL: u64 = 5;
/// The entry is not 0; the tape is unchanged.
pub const NO_ENTRY: u64 = 11;

/// Document 01's answer: the number, a place in bytes, how many items and how many events. What a number does not speak of is 0.
#[derive(Clone, Copy, Debug, PartialEq, Eq)]
pub struct Answer {
    pub number: u64,
    pub place: u64,
    pub items: u64,
    pub events: u64,
}

extern "C" {
    /// `crates/paumelu/src/lib.rt` has its contract, `host/c/paumelu.h` the same in words.
    fn paumelu_read(
        entry: u64,
        text: *const u8,
        text_length: u64,
        limit: u64,
        tape: *mut u8,
        tape_length: u64,
        place: &mut u64,
        items: &mut u64,
        events: &mut u64,
    ) -> u64;
}

/// A tape with room for the items of any text of this length that is read.
pub fn tape_for(text: &[u8]) -> Vec<u8> {
    // Every item but Eof has a byte or more. A longer text than the longest is refused, and needs no room.
    vec![0; (text.len().min(LONGEST) + 1) * ENTRY]
}

/// Reads the items of a text to the tape, at most `limit` of them, Eof included; `u64::MAX` for as many as there are.
pub fn read_items<'t>(text: &[u8], limit: u64, tape: &'t mut [u8]) -> (Answer, Items<'t>) {
    read(0, text, limit, tape)
}

/// The C interface as it is: entry 0 reads items, and any other is refused with 11.
pub fn read<'t>(entry: u64, text: &[u8], limit: u64, tape: &'t mut [u8]) -> (Answer, Items<'t>) {
    let (mut place, mut items, mut events) = (0, 0, 0);
    // SAFETY: the contract has no `requires`: whatever the numbers and bytes are, the call returns, reads `text` and writes `tape` and the
    // three numbers only, and keeps no pointer. What the caller owes, Rust's types give:
    // - both pointers are valid for their lengths, and the bytes have values: they are a slice's own. That of an empty slice is dangling but
    //   not null, and a byte needs no alignment; with length 0 nothing is read or written behind it.
    // - what is written is borrowed by `&mut`, so nothing else that is lent overlaps it, and no other thread sees it; `text` is borrowed by
    //   `&`, so none of it changes while the call runs.
    // - lengths of slices fit in 64 bits, and every number of 64 bits is a `u64`.
    let number = unsafe {
        paumelu_read(entry, text.as_ptr(), text.len() as u64, limit, tape.as_mut_ptr(), tape.len() as u64, &mut place, &mut items, &mut events)
    };
    // No more entries are written than the tape has room for, so the part is there.
    let written = &tape[..items as usize * ENTRY];
    (Answer { number, place, items, events }, Items::of(written))
}
