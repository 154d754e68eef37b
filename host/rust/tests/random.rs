//! Any bytes, any limit and any room get an answer, and it is the one that the items of the whole text give.
mod common;
use common::{all, answer, entries};
use paumelu::{Kind, LIMIT, NOT_UTF8, TAPE_FULL};

/// Random numbers that a seed fixes (SplitMix64).
struct Chance(u64);

impl Chance {
    fn below(&mut self, end: usize) -> usize {
        self.0 = self.0.wrapping_add(0x9E37_79B9_7F4A_7C15);
        let mut z = self.0;
        z = (z ^ (z >> 30)).wrapping_mul(0xBF58_476D_1CE4_E5B9);
        z = (z ^ (z >> 27)).wrapping_mul(0x94D0_49BB_1331_11EB);
        ((z ^ (z >> 31)) % end as u64) as usize
    }

    /// Bytes of which most mean something to the lexer.
    fn text(&mut self) -> Vec<u8> {
        let pieces = b"{}()[]:,!$=@|&..\"\"\"\"\\\\uDd8u{1}09-+eE.aZ_ \t\n\r#?";
        let wild = self.below(3) == 0;
        (0..self.below(80)).map(|_| if wild { self.below(256) as u8 } else { pieces[self.below(pieces.len())] }).collect()
    }
}

/// The items cover the text from its start to its end, one after the other, and only an Eof is empty.
fn tiles(text: &[u8], items: &[common::Entry]) {
    let mut end = 0;
    for (i, &(code, start, len)) in items.iter().enumerate() {
        assert_eq!(start, end, "{text:?}");
        assert_eq!(len == 0, i + 1 == items.len(), "{text:?}");
        assert_eq!(code == 0, i + 1 == items.len(), "{text:?}");
        end = start + len;
    }
    assert_eq!(end, text.len(), "{text:?}");
}

#[test]
fn random_texts() {
    let mut chance = Chance(1);
    for _ in 0..20_000 {
        let text = chance.text();
        let limit = chance.below(100);
        let size = chance.below(800);
        let mut tape = vec![0xA5; size];
        let (given, items) = paumelu::read_items(&text, limit as u64, &mut tape);
        let found = entries(items);
        assert!(items.iter().all(|item| !matches!(item.kind(), Kind::Error(number) if !(1..=18).contains(&number))));
        assert!(tape[found.len() * paumelu::ENTRY..].iter().all(|&byte| byte == 0xA5));

        if let Err(fault) = std::str::from_utf8(&text) {
            assert_eq!(given, answer(NOT_UTF8, fault.valid_up_to(), 0), "{text:?}");
            continue;
        }
        let whole = all(&text);
        tiles(&text, &whole);
        let kept = limit.min(size / paumelu::ENTRY).min(whole.len());
        assert_eq!(found, whole[..kept], "{text:?}");
        let place = whole.get(kept).map_or(text.len(), |&(_, start, _)| start);
        let number = match kept {
            n if n == whole.len() => 0,
            n if n == limit => LIMIT,
            _ => TAPE_FULL,
        };
        assert_eq!(given, answer(number, place, kept), "{text:?}");
    }
}
