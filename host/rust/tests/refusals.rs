//! Limits, room and refusals, and that tape bytes past the last entry stay as they were.
mod common;
use common::{all, answer, entries, Entry};
use paumelu::{Answer, LIMIT, NOT_UTF8, NO_ENTRY, TAPE_FULL};

const BEFORE: u8 = 0xA5;

/// Reads to a tape of `size` bytes that held something before, and looks at all of it afterwards.
fn read(entry: u64, text: &[u8], limit: u64, size: usize) -> (Answer, Vec<Entry>) {
    let mut tape = vec![BEFORE; size];
    let (given, items) = paumelu::read(entry, text, limit, &mut tape);
    let found = entries(items);
    assert_eq!(found.len() as u64, given.items);
    assert!(tape[found.len() * paumelu::ENTRY..].iter().all(|&byte| byte == BEFORE), "{text:?}: bytes past the last entry");
    (given, found)
}

#[test]
fn one_name_under_limits() {
    assert_eq!(read(0, b"a", 0, 16), (answer(LIMIT, 0, 0), vec![]));
    assert_eq!(read(0, b"a", 1, 16), (answer(LIMIT, 1, 1), vec![(18, 0, 1)]));
    assert_eq!(read(0, b"a", 2, 16), (answer(0, 1, 2), vec![(18, 0, 1), (0, 1, 0)]));
    assert_eq!(read(0, b"", 0, 16), (answer(LIMIT, 0, 0), vec![]));
}

#[test]
fn every_limit_and_room() {
    let text = "{ chapter(text: \"Once\") { words } } .. 00 \"".as_bytes();
    let whole = all(text);
    for limit in 0..whole.len() + 3 {
        for size in 0..(whole.len() + 2) * paumelu::ENTRY {
            let room = size / paumelu::ENTRY;
            let kept = limit.min(room).min(whole.len());
            let number = if kept == whole.len() {
                0
            } else if kept == limit {
                LIMIT
            } else {
                TAPE_FULL
            };
            let place = whole.get(kept).map_or(text.len(), |&(_, start, _)| start);
            assert_eq!(read(0, text, limit as u64, size), (answer(number, place, kept), whole[..kept].to_vec()), "limit {limit}, {size} bytes");
        }
    }
}

#[test]
fn empty_slices() {
    assert_eq!(read(0, b"", u64::MAX, 0), (answer(TAPE_FULL, 0, 0), vec![]));
    assert_eq!(read(0, b"a", u64::MAX, 0), (answer(TAPE_FULL, 0, 0), vec![]));
    assert_eq!(read(0, b"", u64::MAX, 8), (answer(0, 0, 1), vec![(0, 0, 0)]));
}

#[test]
fn no_other_entry() {
    for entry in [1, 2, 5, 255, 256, 1 << 32, u64::MAX] {
        assert_eq!(read(entry, b"a", u64::MAX, 16), (answer(NO_ENTRY, 0, 0), vec![]));
        // Tested before all else.
        assert_eq!(read(entry, b"\xFF", 0, 0), (answer(NO_ENTRY, 0, 0), vec![]));
    }
}

#[test]
fn not_utf8() {
    for (text, place) in [(&b"\xFF"[..], 0), (b"ab\x80", 2), (b"\xC3", 0), (b"a\xC3\xA9\xE2\x82", 3), (b"\xED\xA0\x80", 0), (b"\xF4\x90\x80\x80", 0)]
    {
        // Before the limit and the room.
        for (limit, size) in [(u64::MAX, 64), (0, 64), (u64::MAX, 0)] {
            assert_eq!(read(0, text, limit, size), (answer(NOT_UTF8, place, 0), vec![]), "{text:?}");
        }
    }
}
