//! What an item is.

/// The kinds of items, with the crate apollo-parser's names.
#[derive(Clone, Copy, Debug, PartialEq, Eq, Hash)]
pub enum Kind {
    Eof,
    /// Tabs, spaces, line ends and U+FEFF.
    Whitespace,
    Comment,
    /// `,`
    Comma,
    /// `!`
    Bang,
    /// `$`
    Dollar,
    /// `&`
    Amp,
    /// `(`
    LParen,
    /// `)`
    RParen,
    /// `...`
    Spread,
    /// `:`
    Colon,
    /// `=`
    Eq,
    /// `@`
    At,
    /// `[`
    LBracket,
    /// `]`
    RBracket,
    /// `{`
    LCurly,
    /// `|`
    Pipe,
    /// `}`
    RCurly,
    Name,
    StringValue,
    Int,
    Float,
    /// An error, by its number from 1 to 18.
    Error(u8),
}

/// The kind of each code below 64, by the code.
#[rustfmt::skip]
const KINDS: [Kind; 22] = [
    Kind::Eof, Kind::Whitespace, Kind::Comment, Kind::Comma, Kind::Bang, Kind::Dollar, Kind::Amp, Kind::LParen, Kind::RParen, Kind::Spread,
    Kind::Colon, Kind::Eq, Kind::At, Kind::LBracket, Kind::RBracket, Kind::LCurly, Kind::Pipe, Kind::RCurly, Kind::Name, Kind::StringValue,
    Kind::Int, Kind::Float,
];

impl Kind {
    /// Of a code that the library wrote: it writes those of document 01 and no other.
    pub(crate) fn of(code: u8) -> Kind {
        match code.checked_sub(64) {
            Some(number) => Kind::Error(number),
            None => KINDS[usize::from(code)],
        }
    }
}
