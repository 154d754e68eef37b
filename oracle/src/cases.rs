//! Cases and answers as the program `replay` reads and writes them: crates/replay/src/main.rt says how. All numbers are big-endian.
use crate::grammar::Entry;
use std::io::{self, Read};

pub const ITEMS: u8 = 0;
pub const VALUE: u8 = 1;
pub const CONSTANT: u8 = 2;
pub const TYPE: u8 = 3;
pub const SELECTION_SET: u8 = 4;
pub const PART: u8 = 5;
pub const INTERFACE: u8 = 6;

/// What a tape's bytes are before the call.
pub const UNTOUCHED: u8 = 0xA5;

/// A case without its text.
#[derive(Clone, Copy, Debug)]
pub struct Call {
    pub entry: u8,
    /// The token limit; of a part, its start.
    pub limit: u64,
    /// The depth limit; of the C interface, the entry code; of a part, its length.
    pub depth: u64,
    pub item_bytes: usize,
    pub event_bytes: usize,
}

impl Call {
    /// The grammar entry that is called; none for the other calls.
    pub fn grammar(&self) -> Option<Entry> {
        match self.entry {
            VALUE => Some(Entry::Value),
            CONSTANT => Some(Entry::Constant),
            TYPE => Some(Entry::Type),
            SELECTION_SET => Some(Entry::SelectionSet),
            _ => None,
        }
    }
}

fn number(bytes: &[u8]) -> u64 {
    bytes.iter().fold(0, |v, b| v << 8 | u64::from(*b))
}

/// The next case; none at the input's end.
pub fn read_case(input: &mut impl Read) -> io::Result<Option<(Call, Vec<u8>)>> {
    let mut head = [0u8; 29];
    if input.read(&mut head[..1])? == 0 {
        return Ok(None);
    }
    input.read_exact(&mut head[1..])?;
    let call = Call {
        entry: head[0],
        limit: number(&head[1..9]),
        depth: number(&head[9..17]),
        item_bytes: number(&head[17..21]) as usize,
        event_bytes: number(&head[21..25]) as usize,
    };
    let mut text = vec![0; number(&head[25..29]) as usize];
    input.read_exact(&mut text)?;
    Ok(Some((call, text)))
}

pub fn write_case(call: &Call, text: &[u8], out: &mut Vec<u8>) {
    out.push(call.entry);
    out.extend(call.limit.to_be_bytes());
    out.extend(call.depth.to_be_bytes());
    out.extend((call.item_bytes as u32).to_be_bytes());
    out.extend((call.event_bytes as u32).to_be_bytes());
    out.extend((text.len() as u32).to_be_bytes());
    out.extend(text);
}
