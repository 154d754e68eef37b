//! Document 01's cases of item reading, and one text for each kind and each error.
mod common;
use common::{all, Entry};
use paumelu::Kind;

fn gives(text: &str, items: &[Entry]) {
    let mut expected = items.to_vec();
    expected.push((0, text.len(), 0));
    assert_eq!(all(text.as_bytes()), expected, "{text:?}");
}

#[test]
fn the_cases_of_document_01() {
    gives("", &[]);
    gives(".{", &[(74, 0, 2)]);
    gives("00", &[(66, 0, 2)]);
    gives("1.a", &[(68, 0, 3)]);
    gives("\"\"\"\"\"\"", &[(19, 0, 6)]);
    gives("\"\"\"\"", &[(76, 0, 4)]);
    gives(r#""\u{}""#, &[(82, 0, 6)]);
    gives(r#""\uD83D""#, &[(81, 0, 8)]);
    gives(r#""\u\""#, &[(79, 0, 5)]);
}

#[test]
fn the_tape_of_document_01() {
    let mut tape = [0xA5; 33];
    let (_, items) = paumelu::read_items(b"{a}", u64::MAX, &mut tape);
    assert_eq!(items.len(), 4);
    let words = [0x0F00000000000001_u64, 0x1200000010000001, 0x1100000020000001, 0x0000000030000000];
    let mut expected = words.map(u64::to_be_bytes).concat();
    expected.push(0xA5);
    assert_eq!(tape[..], expected);
}

#[test]
fn every_kind() {
    use Kind::*;
    let text = " #c\n,!$&()...:=@[]{|}a\"s\"1 1.5\u{FEFF}?";
    let mut tape = paumelu::tape_for(text.as_bytes());
    let (_, items) = paumelu::read_items(text.as_bytes(), u64::MAX, &mut tape);
    let found: Vec<(Kind, &str)> = items.iter().map(|item| (item.kind(), item.part_str(text))).collect();
    #[rustfmt::skip]
    let expected = [
        (Whitespace, " "), (Comment, "#c"), (Whitespace, "\n"), (Comma, ","), (Bang, "!"), (Dollar, "$"), (Amp, "&"), (LParen, "("), (RParen, ")"),
        (Spread, "..."), (Colon, ":"), (Eq, "="), (At, "@"), (LBracket, "["), (RBracket, "]"), (LCurly, "{"), (Pipe, "|"), (RCurly, "}"),
        (Name, "a"), (StringValue, "\"s\""), (Int, "1"), (Whitespace, " "), (Float, "1.5"), (Whitespace, "\u{FEFF}"), (Error(1), "?"), (Eof, ""),
    ];
    assert_eq!(found, expected);
}

#[test]
fn every_error() {
    #[rustfmt::skip]
    let texts = [
        "?", "00", "1a", "1.a", "1.5.", "1ea", "1e+a", "-", "1.", ".", "\"", "\"a", "\"a\n\"", "\"\\q\"", "\"\\ux\"", "\"\\u\"", "\"\\uDC00\"", "\"\\u{}\"",
    ];
    for (number, text) in (1..).zip(texts) {
        gives(text, &[(64 + number, 0, text.len())]);
    }
}

#[test]
fn a_part_is_the_text_of_its_span() {
    let text = "{ é \"ü\" }";
    let mut tape = paumelu::tape_for(text.as_bytes());
    let (_, items) = paumelu::read_items(text.as_bytes(), u64::MAX, &mut tape);
    let parts: Vec<&str> = items.iter().map(|item| item.part_str(text)).collect();
    assert_eq!(parts.concat(), text);
    let bytes: Vec<&[u8]> = items.iter().map(|item| item.part(text.as_bytes())).collect();
    assert_eq!(bytes.concat(), text.as_bytes());

    let brace = items.get(6).expect("the seventh item is the closing brace");
    assert_eq!((brace.kind(), brace.part(text.as_bytes())), (Kind::RCurly, &b"}"[..]));
    assert_eq!(brace.part(b"{ short"), b"");
    // Of another text: the span would begin inside the last character.
    assert_eq!(brace.part_str("{ a \"u\" é"), "");
    assert_eq!(items.get(items.len()), None);
}
