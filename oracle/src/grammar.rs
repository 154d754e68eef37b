//! The grammar entries by document 01 and GraphQL September 2025, written by hand from these alone: what a text's items give as a value, a
//! constant value, a type or a selection set that fills the whole text.
use crate::items::Item;

#[derive(Clone, Copy, Debug, PartialEq, Eq)]
pub enum Entry {
    Value,
    Constant,
    Type,
    SelectionSet,
}

/// What stood to come where a refusal is. Differences from the crate are told apart by it.
#[derive(Clone, Copy, Debug, PartialEq, Eq)]
pub enum Due {
    /// One more level.
    Depth,
    /// A value or `]`, at the text's end.
    ListEnd,
    ObjectColon,
    ArgumentColon,
    /// A fragment name, a type condition, directives or a selection set, after `...`.
    AfterSpread,
    Else,
}

/// 7, 8 or 9.
#[derive(Clone, Copy, Debug)]
pub struct Refusal {
    pub number: u64,
    pub place: usize,
    pub due: Due,
}

pub struct Sentence {
    pub events: Vec<Item>,
    /// The most levels open at once.
    pub depth: u64,
}

const EOF: u8 = 0;
const COMMA: u8 = 3;
const BANG: u8 = 4;
const DOLLAR: u8 = 5;
const LEFT_PAREN: u8 = 7;
const RIGHT_PAREN: u8 = 8;
const SPREAD: u8 = 9;
const COLON: u8 = 10;
const AT: u8 = 12;
const LEFT_BRACKET: u8 = 13;
const RIGHT_BRACKET: u8 = 14;
const LEFT_BRACE: u8 = 15;
const RIGHT_BRACE: u8 = 17;
const NAME_TOKEN: u8 = 18;
const STRING: u8 = 19;
const INT: u8 = 20;
const FLOAT: u8 = 21;

const NAME: u8 = 1;
const INT_VALUE: u8 = 2;
const FLOAT_VALUE: u8 = 3;
const STRING_VALUE: u8 = 4;
const BOOLEAN_VALUE: u8 = 5;
const NULL_VALUE: u8 = 6;
const ENUM_VALUE: u8 = 7;
const LIST_VALUE: u8 = 8;
const OBJECT_VALUE: u8 = 9;
const OBJECT_FIELD: u8 = 10;
const VARIABLE: u8 = 11;
const NAMED_TYPE: u8 = 12;
const LIST_TYPE: u8 = 13;
const NON_NULL_TYPE: u8 = 14;
const SELECTION_SET: u8 = 15;
const FIELD: u8 = 16;
const ALIAS: u8 = 17;
const ARGUMENTS: u8 = 18;
const ARGUMENT: u8 = 19;
const DIRECTIVES: u8 = 20;
const DIRECTIVE: u8 = 21;
const FRAGMENT_SPREAD: u8 = 22;
const FRAGMENT_NAME: u8 = 23;
const INLINE_FRAGMENT: u8 = 24;
const TYPE_CONDITION: u8 = 25;

/// An item that gives no event and stands anywhere: whitespace, a comment, a comma.
pub fn ignored(item: &Item) -> bool {
    (1..=COMMA).contains(&item.code)
}

struct Reader<'a> {
    text: &'a str,
    /// What is not ignored, Eof at the end.
    tokens: Vec<&'a Item>,
    at: usize,
    limit: u64,
    open: u64,
    deepest: u64,
    events: Vec<Item>,
}

type Read = Result<(), Refusal>;

/// The items, without error items and with Eof, read as the entry under the depth limit.
pub fn read(entry: Entry, text: &str, items: &[Item], limit: u64) -> Result<Sentence, Refusal> {
    let tokens = items.iter().filter(|item| !ignored(item)).collect();
    let mut reader = Reader { text, tokens, at: 0, limit, open: 0, deepest: 0, events: Vec::new() };
    match entry {
        Entry::Value => reader.value(false)?,
        Entry::Constant => reader.value(true)?,
        Entry::Type => reader.of_type()?,
        Entry::SelectionSet => reader.selection_set()?,
    }
    if reader.next() != EOF {
        return reader.refuse(9, Due::Else);
    }
    Ok(Sentence { events: reader.events, depth: reader.deepest })
}

impl Reader<'_> {
    /// The next token's code.
    fn next(&self) -> u8 {
        self.tokens[self.at].code
    }

    /// The text of the token so far ahead.
    fn word(&self, ahead: usize) -> &str {
        let token = self.tokens[self.at + ahead];
        &self.text[token.start..token.start + token.length]
    }

    fn refuse<T>(&self, number: u64, due: Due) -> Result<T, Refusal> {
        Err(Refusal { number, place: self.tokens[self.at].start, due })
    }

    /// Takes the next token, whatever it is.
    fn take(&mut self) {
        let token = self.tokens[self.at];
        self.events.push(Item { code: 128 + token.code, start: token.start, length: token.length });
        self.at += 1;
    }

    fn expect(&mut self, code: u8, due: Due) -> Read {
        if self.next() != code {
            return self.refuse(9, due);
        }
        self.take();
        Ok(())
    }

    /// Opens a node at the next token, reads what is in it, and closes it after the last token taken.
    fn node(&mut self, kind: u8, inside: impl FnOnce(&mut Self) -> Read) -> Read {
        let start = self.tokens[self.at].start;
        self.events.push(Item { code: kind, start, length: 0 });
        inside(self)?;
        self.close(kind, start);
        Ok(())
    }

    fn close(&mut self, kind: u8, start: usize) {
        let last = self.tokens[self.at - 1];
        self.events.push(Item { code: 64 + kind, start, length: last.start + last.length - start });
    }

    /// A node around the next token.
    fn leaf(&mut self, kind: u8) -> Read {
        self.node(kind, |r| {
            r.take();
            Ok(())
        })
    }

    /// One level more around what is read; refused at the next token if the limit is reached.
    fn level(&mut self, inside: impl FnOnce(&mut Self) -> Read) -> Read {
        if self.open == self.limit {
            return self.refuse(7, Due::Depth);
        }
        self.open += 1;
        self.deepest = self.deepest.max(self.open);
        inside(self)?;
        self.open -= 1;
        Ok(())
    }

    fn name(&mut self) -> Read {
        if self.next() != NAME_TOKEN {
            return self.refuse(9, Due::Else);
        }
        self.leaf(NAME)
    }

    fn value(&mut self, constant: bool) -> Read {
        match self.next() {
            DOLLAR if constant => self.refuse(8, Due::Else),
            DOLLAR => self.node(VARIABLE, |r| {
                r.take();
                r.name()
            }),
            INT => self.leaf(INT_VALUE),
            FLOAT => self.leaf(FLOAT_VALUE),
            STRING => self.leaf(STRING_VALUE),
            NAME_TOKEN => match self.word(0) {
                "true" | "false" => self.leaf(BOOLEAN_VALUE),
                "null" => self.leaf(NULL_VALUE),
                _ => self.node(ENUM_VALUE, Self::name),
            },
            LEFT_BRACKET => self.node(LIST_VALUE, |r| r.list(constant)),
            LEFT_BRACE => self.node(OBJECT_VALUE, |r| r.object(constant)),
            _ => self.refuse(9, Due::Else),
        }
    }

    fn list(&mut self, constant: bool) -> Read {
        self.take();
        while self.next() != RIGHT_BRACKET {
            if self.next() == EOF {
                return self.refuse(9, Due::ListEnd);
            }
            self.level(|r| r.value(constant))?;
        }
        self.take();
        Ok(())
    }

    fn object(&mut self, constant: bool) -> Read {
        self.take();
        while self.next() == NAME_TOKEN {
            self.node(OBJECT_FIELD, |r| {
                r.name()?;
                r.expect(COLON, Due::ObjectColon)?;
                r.level(|r| r.value(constant))
            })?;
        }
        self.expect(RIGHT_BRACE, Due::Else)
    }

    fn of_type(&mut self) -> Read {
        let (opening, start) = (self.events.len(), self.tokens[self.at].start);
        match self.next() {
            NAME_TOKEN => self.named_type()?,
            LEFT_BRACKET => self.node(LIST_TYPE, |r| {
                r.take();
                r.level(Self::of_type)?;
                r.expect(RIGHT_BRACKET, Due::Else)
            })?,
            _ => return self.refuse(9, Due::Else),
        }
        if self.next() == BANG {
            // Its node is around what stands already.
            self.events.insert(opening, Item { code: NON_NULL_TYPE, start, length: 0 });
            self.take();
            self.close(NON_NULL_TYPE, start);
        }
        Ok(())
    }

    fn named_type(&mut self) -> Read {
        self.node(NAMED_TYPE, Self::name)
    }

    fn selection_set(&mut self) -> Read {
        if self.next() != LEFT_BRACE {
            return self.refuse(9, Due::Else);
        }
        self.node(SELECTION_SET, |r| {
            r.take();
            r.level(|r| {
                r.selection()?;
                while r.next() != RIGHT_BRACE {
                    r.selection()?;
                }
                Ok(())
            })?;
            r.expect(RIGHT_BRACE, Due::Else)
        })
    }

    fn selection(&mut self) -> Read {
        match self.next() {
            NAME_TOKEN => self.node(FIELD, Self::field),
            SPREAD => self.fragment(),
            _ => self.refuse(9, Due::Else),
        }
    }

    fn field(&mut self) -> Read {
        if self.tokens[self.at + 1].code == COLON {
            self.node(ALIAS, |r| {
                r.name()?;
                r.expect(COLON, Due::Else)
            })?;
        }
        self.name()?;
        self.arguments()?;
        self.directives()?;
        if self.next() == LEFT_BRACE {
            self.selection_set()?;
        }
        Ok(())
    }

    /// Arguments, if there are any. In a selection set none is constant.
    fn arguments(&mut self) -> Read {
        if self.next() != LEFT_PAREN {
            return Ok(());
        }
        self.node(ARGUMENTS, |r| {
            r.take();
            r.argument()?;
            while r.next() == NAME_TOKEN {
                r.argument()?;
            }
            r.expect(RIGHT_PAREN, Due::Else)
        })
    }

    fn argument(&mut self) -> Read {
        if self.next() != NAME_TOKEN {
            return self.refuse(9, Due::Else);
        }
        self.node(ARGUMENT, |r| {
            r.name()?;
            r.expect(COLON, Due::ArgumentColon)?;
            r.value(false)
        })
    }

    /// Directives, if there are any.
    fn directives(&mut self) -> Read {
        if self.next() != AT {
            return Ok(());
        }
        self.node(DIRECTIVES, |r| {
            while r.next() == AT {
                r.node(DIRECTIVE, |r| {
                    r.take();
                    r.name()?;
                    r.arguments()
                })?;
            }
            Ok(())
        })
    }

    /// A fragment spread or an inline fragment: what follows the `...` tells which.
    fn fragment(&mut self) -> Read {
        if self.tokens[self.at + 1].code == NAME_TOKEN && self.word(1) != "on" {
            return self.node(FRAGMENT_SPREAD, |r| {
                r.take();
                r.node(FRAGMENT_NAME, Self::name)?;
                r.directives()
            });
        }
        self.node(INLINE_FRAGMENT, |r| {
            r.take();
            match r.next() {
                NAME_TOKEN => r.type_condition()?,
                AT | LEFT_BRACE => {}
                _ => return r.refuse(9, Due::AfterSpread),
            }
            r.directives()?;
            r.selection_set()
        })
    }

    fn type_condition(&mut self) -> Read {
        self.node(TYPE_CONDITION, |r| {
            r.take();
            if r.next() != NAME_TOKEN {
                return r.refuse(9, Due::Else);
            }
            r.named_type()
        })
    }
}
