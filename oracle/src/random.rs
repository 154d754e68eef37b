//! Random texts: soups of pieces, queries as people write them, damaged copies of those, bytes, and long ones.
use crate::chance::Chance;

#[rustfmt::skip]
const PIECES: [&str; 64] = [
    "!", "$", "&", "(", ")", "...", "..", ".", ":", "=", "@", "[", "]", "{", "|", "}", ",", " ", "\t", "\n", "\r", "\r\n", "\u{FEFF}", "#", "# c\n", "a",
    "Z", "_", "e", "E", "u", "on", "0", "1", "9", "-", "+", "00", "1.5", "-1e5", "1e+", "\"", "\"\"", "\"\"\"", "\\", "\\\"", "\\\"\"\"", "\\u", "\\u{",
    "\\u{41}", "\\u0041", "\\uD83D", "\\uDE00", "\\uD83D\\uDE00", "\\n", "\\q", "D83D", "x", "é", "€", "😀", "?", "\0", "\u{7F}",
];

/// Up to `most` pieces.
pub fn soup(chance: &mut Chance, most: usize) -> Vec<u8> {
    let mut text = String::new();
    for _ in 0..chance.from(1, most) {
        if chance.once_in(24) {
            text.push(chance.scalar());
        } else {
            text.push_str(chance.pick(&PIECES));
        }
    }
    text.into_bytes()
}

/// Bytes of which most are ASCII or follow one another as in UTF-8.
pub fn bytes(chance: &mut Chance, most: usize) -> Vec<u8> {
    let mut text = Vec::new();
    for _ in 0..chance.from(1, most) {
        match chance.below(8) {
            0 => text.push(chance.below(256) as u8),
            1 => text.push(chance.from(0x80, 0xBF) as u8),
            2..=4 => text.extend(chance.scalar().to_string().as_bytes()),
            _ => text.push(chance.below(0x80) as u8),
        }
    }
    text
}

struct Writer<'a> {
    chance: &'a mut Chance,
    out: String,
}

const NAMES: [&str; 16] =
    ["id", "name", "user", "a", "node", "_x", "edges", "Query", "on", "true", "null", "ENUM_1", "__typename", "createdAt", "e", "E9"];

impl Writer<'_> {
    fn put(&mut self, text: &str) {
        self.out.push_str(text);
    }

    fn gap(&mut self) {
        let gap = match self.chance.below(24) {
            0 => " # a comment, with \"quotes\"\n",
            1 => "\r\n\t",
            2 => "\u{FEFF}",
            3 => ", ",
            4..=8 => "\n    ",
            _ => " ",
        };
        self.put(gap);
    }

    fn name(&mut self) {
        let name = self.chance.pick(&NAMES);
        self.put(name);
    }

    fn string(&mut self) {
        let most = if self.chance.once_in(12) { 3000 } else { 20 };
        self.put("\"");
        for _ in 0..self.chance.below(most) {
            match self.chance.below(32) {
                0 => self.put("\\\""),
                1 => self.put("\\\\"),
                2 => self.put("\\n"),
                3 => self.put("\\u00e9"),
                4 => self.put("\\uD83D\\uDE00"),
                5 => self.put("\\u{1F600}"),
                6 => {
                    let c = self.chance.scalar();
                    if !['"', '\\', '\n', '\r'].contains(&c) {
                        self.out.push(c);
                    }
                }
                _ => self.out.push(char::from(b'a' + (self.chance.below(26) as u8))),
            }
        }
        self.put("\"");
    }

    fn block_string(&mut self) {
        self.put("\"\"\"");
        for _ in 0..self.chance.below(40) {
            let piece = self.chance.pick(&["a", "word ", "\n", "\n    ", "\\\"\"\"", "\\", "\" ", "é", "\\n", "#"]);
            self.put(piece);
        }
        self.put(" \"\"\"");
    }

    fn value(&mut self, depth: usize) {
        match self.chance.below(if depth == 0 { 8 } else { 10 }) {
            0 => {
                let n = self.chance.next() as i32;
                self.put(&n.to_string());
            }
            1 => {
                let float = self.chance.pick(&["0.5", "-1.25", "1e10", "6.0221e+23", "-0.0E-1", "12.250"]);
                self.put(float);
            }
            2 => self.put("0"),
            3 => self.name(),
            4 => {
                self.put("$");
                self.name();
            }
            5 => self.block_string(),
            6 | 7 => self.string(),
            8 => {
                self.put("[");
                for _ in 0..self.chance.below(4) {
                    self.value(depth - 1);
                    self.gap();
                }
                self.put("]");
            }
            _ => {
                self.put("{");
                for _ in 0..self.chance.below(4) {
                    self.name();
                    self.put(": ");
                    self.value(depth - 1);
                    self.gap();
                }
                self.put("}");
            }
        }
    }

    fn arguments(&mut self) {
        self.put("(");
        for _ in 0..self.chance.from(1, 3) {
            self.name();
            self.put(":");
            self.gap();
            self.value(3);
            self.gap();
        }
        self.put(")");
    }

    fn directive(&mut self) {
        self.put(" @");
        self.name();
        if self.chance.once_in(2) {
            self.arguments();
        }
    }

    fn selection(&mut self, depth: usize) {
        match self.chance.below(8) {
            0 => {
                self.put("...");
                self.name();
            }
            1 => {
                self.put("... on ");
                self.name();
                self.selections(depth);
                return;
            }
            2 => {
                self.name();
                self.put(": ");
                self.name();
            }
            _ => self.name(),
        }
        if self.chance.once_in(3) {
            self.arguments();
        }
        if self.chance.once_in(6) {
            self.directive();
        }
        if depth > 0 && self.chance.once_in(3) {
            self.selections(depth - 1);
        }
    }

    fn selections(&mut self, depth: usize) {
        self.put(" {");
        for _ in 0..self.chance.from(1, 4) {
            self.gap();
            self.selection(depth.saturating_sub(1));
        }
        self.gap();
        self.put("}");
    }

    fn definition(&mut self) {
        let begin = self.chance.pick(&["", "query Q($a: [Int!]! = [1, 2], $b: S = \"x\")", "mutation M", "fragment F on T", "subscription"]);
        self.put(begin);
        self.selections(4);
        self.gap();
    }
}

/// A document of one to three definitions, without lexical errors.
pub fn query(chance: &mut Chance) -> Vec<u8> {
    let mut writer = Writer { chance, out: String::new() };
    for _ in 0..writer.chance.from(1, 3) {
        writer.definition();
    }
    writer.out.into_bytes()
}

/// One to four small changes. Mostly the bytes stay UTF-8.
pub fn damage(chance: &mut Chance, text: &mut Vec<u8>) {
    for _ in 0..chance.from(1, 4) {
        let at = chance.below(text.len() + 1);
        let to = (at + chance.from(0, 6)).min(text.len());
        match chance.below(10) {
            0 => text.truncate(at),
            1 | 2 => drop(text.drain(at..to)),
            3 => {
                let copied = text[at..to].to_vec();
                text.splice(at..at, copied);
            }
            4 => {
                let c = chance.scalar().to_string();
                text.splice(at..at, c.into_bytes());
            }
            5 if at < text.len() && chance.once_in(4) => text[at] = chance.below(256) as u8,
            6 => drop(text.splice(at..to, "\"".bytes())),
            7 => drop(text.splice(at..at, "\\".bytes())),
            _ => {
                let piece = chance.pick(&PIECES);
                text.splice(at..at, piece.bytes());
            }
        }
    }
}

/// Queries, damaged ones and soups one after the other, some `size` bytes in all.
pub fn long(chance: &mut Chance, size: usize) -> Vec<u8> {
    let mut text = Vec::new();
    while text.len() < size {
        let mut next = match chance.below(6) {
            0 => soup(chance, 60),
            1 => "word ".repeat(chance.below(2000)).into_bytes(),
            _ => query(chance),
        };
        if chance.once_in(4) {
            damage(chance, &mut next);
        }
        // Only well-formed texts are joined: else all after the first fault is for nothing.
        if std::str::from_utf8(&next).is_ok() {
            text.extend(next);
            text.extend(if chance.once_in(2) { "\n" } else { "\"\n" }.bytes());
        }
    }
    text
}
