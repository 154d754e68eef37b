//! Places that 16 bits cannot hold, and the longest text.
mod common;
use common::{all, answer, entry};
use paumelu::{Items, LONGEST, TOO_LONG};

#[test]
fn names_around_65_536() {
    for start in [65_534, 65_535, 65_536, 65_537] {
        let mut text = vec![b' '; start];
        text.extend(b"name ");
        assert_eq!(all(&text), [(1, 0, start), (18, start, 4), (1, start + 4, 1), (0, start + 5, 0)]);
    }
}

#[test]
fn spans_around_65_536() {
    for length in [65_535, 65_536, 65_537] {
        assert_eq!(all(&vec![b'a'; length]), [(18, 0, length), (0, length, 0)]);
        let string = ["\"", &"x".repeat(length - 2), "\""].concat();
        assert_eq!(all(string.as_bytes()), [(19, 0, length), (0, length, 0)]);
    }
}

/// One item of the longest length.
#[test]
fn the_longest_name() {
    assert_eq!(all(&vec![b'a'; LONGEST]), [(18, 0, LONGEST), (0, LONGEST, 0)]);
}

/// As many items as there can be.
#[test]
fn the_most_items() {
    let text = vec![b'{'; LONGEST];
    let mut tape = paumelu::tape_for(&text);
    let (given, items) = paumelu::read_items(&text, u64::MAX, &mut tape);
    assert_eq!(given, answer(0, LONGEST, LONGEST + 1));
    let at = |items: Items<'_>, i| items.get(i).map(entry);
    assert_eq!(at(items, 0), Some((15, 0, 1)));
    assert_eq!(at(items, LONGEST - 1), Some((15, LONGEST - 1, 1)));
    assert_eq!(at(items, LONGEST), Some((0, LONGEST, 0)));
    assert_eq!(at(items, LONGEST + 1), None);
}

/// Before UTF-8 is tested, too.
#[test]
fn one_byte_too_many() {
    for byte in [b'a', 0xFF] {
        let mut tape = [0xA5; 64];
        let (given, items) = paumelu::read_items(&vec![byte; LONGEST + 1], u64::MAX, &mut tape);
        assert_eq!(given, answer(TOO_LONG, 0, 0));
        assert!(items.is_empty());
        assert_eq!(tape, [0xA5; 64]);
    }
}
