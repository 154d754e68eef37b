//! The crate's tokens and errors as document 01's items.
use apollo_parser::{Error, Lexer, TokenKind};

#[derive(Clone, Copy, Debug, PartialEq, Eq)]
pub struct Item {
    pub code: u8,
    pub start: usize,
    pub length: usize,
}

/// Document 01's code of a token.
fn token_code(kind: TokenKind) -> u8 {
    match kind {
        TokenKind::Eof => 0,
        TokenKind::Whitespace => 1,
        TokenKind::Comment => 2,
        TokenKind::Comma => 3,
        TokenKind::Bang => 4,
        TokenKind::Dollar => 5,
        TokenKind::Amp => 6,
        TokenKind::LParen => 7,
        TokenKind::RParen => 8,
        TokenKind::Spread => 9,
        TokenKind::Colon => 10,
        TokenKind::Eq => 11,
        TokenKind::At => 12,
        TokenKind::LBracket => 13,
        TokenKind::RBracket => 14,
        TokenKind::LCurly => 15,
        TokenKind::Pipe => 16,
        TokenKind::RCurly => 17,
        TokenKind::Name => 18,
        TokenKind::StringValue => 19,
        TokenKind::Int => 20,
        TokenKind::Float => 21,
    }
}

/// Document 01's number of an error, by the crate's message. Two messages hold the character: in double quotes, and in backquotes
/// with what was expected after it. A `-` at the text's end has the message of an unexpected character, and no other `-` has it.
pub fn error_number(message: &str) -> Option<u8> {
    if let Some(rest) = message.strip_prefix("Unexpected character ") {
        let mut chars = rest.chars();
        let open = chars.next()?;
        let character = chars.next()?;
        let close = chars.next()?;
        return match (open, character, close, chars.as_str()) {
            ('"', '-', '"', "") => Some(8),
            ('"', _, '"', "") => Some(1),
            ('`', _, '`', " as integer suffix") => Some(3),
            ('`', _, '`', ", expected fractional digit") => Some(4),
            ('`', _, '`', " as float suffix") => Some(5),
            ('`', _, '`', ", expected exponent digit or sign") => Some(6),
            ('`', _, '`', ", expected exponent digit") => Some(7),
            ('`', _, '`', "") => Some(8),
            _ => None,
        };
    }
    match message {
        "Numbers must not have non-significant leading zeroes" => Some(2),
        "Unexpected EOF in float value" => Some(9),
        "Unterminated spread operator" => Some(10),
        "unexpected end of data while lexing string value" => Some(11),
        "unterminated string value" => Some(12),
        "unexpected line terminator" => Some(13),
        "unexpected escaped character" => Some(14),
        "invalid unicode escape sequence" => Some(15),
        "incomplete unicode escape sequence" => Some(16),
        "unpaired surrogate in unicode escape sequence" => Some(17),
        "unicode escape sequence must specify a Unicode scalar value" => Some(18),
        _ => None,
    }
}

/// The items of a text, from the crate's lexer without a limit. An item starts where the one before it ended, and is as long as its
/// data. That the crate says the same of its index, and that the data are the text's bytes there, is tested: an `Err` says where not.
pub fn items_of(text: &str) -> Result<Vec<Item>, String> {
    let mut items = Vec::new();
    for result in Lexer::new(text) {
        items.push(item_of(text, &items, result)?);
    }
    match items.last() {
        Some(last) if last.code == 0 && last.start == text.len() => Ok(items),
        _ => Err("the crate's last item is not an Eof at the end".to_string()),
    }
}

fn item_of(text: &str, before: &[Item], result: Result<apollo_parser::Token<'_>, Error>) -> Result<Item, String> {
    let start = before.last().map_or(0, |item| item.start + item.length);
    let (code, index, data) = match &result {
        Ok(token) => (token_code(token.kind()), token.index(), token.data()),
        Err(error) if error.is_limit() || error.is_eof() => return Err(format!("an error without data: {error}")),
        Err(error) => match error_number(error.message()) {
            Some(number) => (64 + number, error.index(), error.data()),
            None => return Err(format!("a message that document 01 has no number for: {error}")),
        },
    };
    if index != start {
        return Err(format!("the item at {start} has index {index}: {result:?}"));
    }
    if text.get(start..start + data.len()) != Some(data) {
        return Err(format!("the item at {start} has data that are not there: {result:?}"));
    }
    if (code == 0) != data.is_empty() {
        return Err(format!("the item at {start} is empty, or an Eof is not: {result:?}"));
    }
    Ok(Item { code, start, length: data.len() })
}

/// The crate under a token limit gives the same items up to it, and then its limit error, whose index is the first unread byte, or
/// (D-1) one less than the length if that byte is past the text. An `Err` says what it gave instead. True: it is D-1.
pub fn limit_departs(text: &str, items: &[Item], limit: usize) -> Result<bool, String> {
    let mut given = Vec::new();
    for result in Lexer::new(text).with_limit(limit) {
        match result {
            Err(error) if error.is_limit() => {
                let place = items.get(given.len()).map_or(text.len(), |item| item.start);
                let departs = place == text.len() && limit > 0;
                let reported = if departs { place - 1 } else { place };
                if given.len() != limit || limit >= items.len() || given[..] != items[..limit] {
                    return Err(format!("the crate's limit {limit} comes after {} items", given.len()));
                }
                if error.index() != reported {
                    return Err(format!("the crate's limit {limit} is at {} and not at {reported}", error.index()));
                }
                return Ok(departs);
            }
            other => given.push(item_of(text, &given, other)?),
        }
    }
    if given == items && items.len() <= limit {
        Ok(false)
    } else {
        Err(format!("the crate's limit {limit} is not reported after {} items", given.len()))
    }
}
