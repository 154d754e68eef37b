//! The items on a tape that was read to, and the parts of the text that they cover.
use crate::kind::Kind;
use std::ops::Range;

/// How many bytes an entry of a tape has. A tape's room is its byte length divided by this.
pub const ENTRY: usize = 8;

/// An item: what stands at the `len` bytes of the text from `start` on.
#[derive(Clone, Copy, Debug, PartialEq, Eq)]
pub struct Item {
    code: u8,
    start: usize,
    len: usize,
}

impl Item {
    /// An entry's fields, most significant first: 8 bits code, 28 bits start, 28 bits length.
    fn of(entry: &[u8]) -> Item {
        let word = entry.iter().fold(0, |word, &byte| word << 8 | u64::from(byte));
        let field = |shift: u32| (word >> shift & 0xFFF_FFFF) as usize;
        Item { code: (word >> 56) as u8, start: field(28), len: field(0) }
    }

    /// Document 01's code: up to 21 a token or an ignored item, from 65 on an error.
    pub fn code(self) -> u8 {
        self.code
    }

    pub fn kind(self) -> Kind {
        Kind::of(self.code)
    }

    pub fn start(self) -> usize {
        self.start
    }

    // Only an Eof is empty, and its kind says so.
    #[allow(clippy::len_without_is_empty)]
    pub fn len(self) -> usize {
        self.len
    }

    pub fn span(self) -> Range<usize> {
        self.start..self.start + self.len
    }

    /// The part of the text that the item covers; the empty part if the span passes the end, as it may in another text than the one read.
    ///
    /// The library's `part` gives the same, but the C interface does not offer it.
    pub fn part(self, text: &[u8]) -> &[u8] {
        text.get(self.span()).unwrap_or_default()
    }

    /// The same of a `str`. No item cuts a character of the text that was read; of another text the part is empty where it would.
    pub fn part_str(self, text: &str) -> &str {
        text.get(self.span()).unwrap_or_default()
    }
}

/// The items that a reading gave: a view of its tape, with nothing copied.
#[derive(Clone, Copy, Debug)]
pub struct Items<'t> {
    entries: &'t [u8],
}

impl<'t> Items<'t> {
    /// Of a whole number of entries that the library wrote.
    pub(crate) fn of(entries: &'t [u8]) -> Items<'t> {
        Items { entries }
    }

    pub fn len(self) -> usize {
        self.entries.len() / ENTRY
    }

    pub fn is_empty(self) -> bool {
        self.entries.is_empty()
    }

    pub fn get(self, index: usize) -> Option<Item> {
        self.entries.chunks_exact(ENTRY).nth(index).map(Item::of)
    }

    /// The items in the order of the text.
    pub fn iter(self) -> impl DoubleEndedIterator<Item = Item> + ExactSizeIterator + Clone + 't {
        self.entries.chunks_exact(ENTRY).map(Item::of)
    }
}
