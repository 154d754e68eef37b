//! Random sentences of the grammar entries: as people write them, nested to a depth, or long; and copies with tokens damaged.
use crate::cases::{CONSTANT, SELECTION_SET, TYPE, VALUE};
use crate::chance::Chance;

const NAMES: [&str; 14] = ["id", "name", "user", "a", "node", "_x", "edges", "Query", "on", "true", "null", "false", "__typename", "e9"];
const STRAY: [&str; 22] =
    ["!", "$", "&", "(", ")", "...", ":", "=", "@", "[", "]", "{", "|", "}", "a", "on", "null", "\"s\"", "1", "1.5", "query", "?"];

/// A string of tokens in the making.
struct Writer<'a> {
    chance: &'a mut Chance,
    tokens: Vec<String>,
    constant: bool,
}

impl Writer<'_> {
    fn put(&mut self, token: &str) {
        self.tokens.push(token.to_string());
    }

    fn name(&mut self) {
        let name = self.chance.pick(&NAMES);
        self.put(name);
    }

    fn string(&mut self) {
        let most = if self.chance.once_in(40) { 3000 } else { 16 };
        let inside: String =
            (0..self.chance.below(most)).map(|_| self.chance.pick(&["a", "é", " ", "\\n", "\\\"", "\\u{1F600}", "#", ",", "{", "]"])).collect();
        let quotes = if self.chance.once_in(4) { "\"\"\"" } else { "\"" };
        let inside = if quotes.len() == 3 { inside.replace("\\\"", "q") } else { inside };
        self.put(&format!("{quotes}{inside}{quotes}"));
    }

    fn value(&mut self, levels: usize) {
        match self.chance.below(if levels == 0 { 8 } else { 12 }) {
            0 => self.put("-12"),
            1 => self.put("1.5e3"),
            2 => self.put("0"),
            3 | 4 => self.name(),
            5 if !self.constant => {
                self.put("$");
                self.name();
            }
            5..=7 => self.string(),
            8 | 9 => {
                self.put("[");
                for _ in 0..self.chance.below(4) {
                    self.value(levels - 1);
                }
                self.put("]");
            }
            _ => {
                self.put("{");
                for _ in 0..self.chance.below(4) {
                    self.name();
                    self.put(":");
                    self.value(levels - 1);
                }
                self.put("}");
            }
        }
    }

    fn of_type(&mut self, levels: usize) {
        if levels > 0 {
            self.put("[");
            self.of_type(levels - 1);
            self.put("]");
        } else {
            self.name();
        }
        if self.chance.once_in(2) {
            self.put("!");
        }
    }

    fn arguments(&mut self) {
        self.put("(");
        for _ in 0..self.chance.from(1, 3) {
            self.name();
            self.put(":");
            self.value(3);
        }
        self.put(")");
    }

    fn directives(&mut self) {
        while self.chance.once_in(5) {
            self.put("@");
            self.name();
            if self.chance.once_in(2) {
                self.arguments();
            }
        }
    }

    fn field(&mut self) {
        if self.chance.once_in(4) {
            self.name();
            self.put(":");
        }
        self.name();
        if self.chance.once_in(3) {
            self.arguments();
        }
        self.directives();
    }

    fn fragment_spread(&mut self) {
        self.put("...");
        let name = self.chance.pick(&NAMES);
        self.put(if name == "on" { "One" } else { name });
        self.directives();
    }

    /// An inline fragment up to its selection set.
    fn inline_fragment(&mut self) {
        self.put("...");
        if self.chance.once_in(2) {
            self.put("on");
            self.name();
        }
        self.directives();
    }

    fn selection_set(&mut self, levels: usize) {
        self.put("{");
        for _ in 0..self.chance.from(1, 4) {
            match self.chance.below(8) {
                0 => self.fragment_spread(),
                1 if levels > 0 => {
                    self.inline_fragment();
                    self.selection_set(levels - 1);
                }
                _ => {
                    self.field();
                    if levels > 0 && self.chance.once_in(3) {
                        self.selection_set(levels - 1);
                    }
                }
            }
        }
        self.put("}");
    }

    /// A value so many levels deep, with one item or field at each.
    fn deep_value(&mut self, levels: usize) {
        let mut closing = Vec::new();
        for _ in 0..levels {
            if self.chance.once_in(2) {
                self.put("[");
                closing.push("]");
            } else {
                self.put("{");
                self.name();
                self.put(":");
                closing.push("}");
            }
        }
        let inside: &[&str] = match self.chance.below(5) {
            0 => &["1"],
            1 => &["[", "]"],
            2 => &["{", "}"],
            3 if !self.constant => &["$", "a"],
            _ => &["true"],
        };
        inside.iter().for_each(|token| self.put(token));
        for token in closing.iter().rev() {
            self.put(token);
        }
    }

    /// A selection set so many levels deep, the innermost of them in an argument now and then.
    fn deep_selection_set(&mut self, levels: usize) {
        let inner = if self.chance.once_in(2) { self.chance.below(levels) } else { 0 };
        for level in 0..levels - inner {
            self.put("{");
            if level + 1 < levels - inner && self.chance.once_in(3) {
                self.inline_fragment();
            } else {
                self.name();
            }
        }
        if inner > 0 {
            self.put("(");
            self.name();
            self.put(":");
            self.deep_value(inner);
            self.put(")");
        }
        for _ in 0..levels - inner {
            self.put("}");
        }
    }
}

fn written(chance: &mut Chance, entry: u8, write: impl FnOnce(&mut Writer)) -> Vec<String> {
    let mut writer = Writer { chance, tokens: Vec::new(), constant: entry == CONSTANT };
    write(&mut writer);
    writer.tokens
}

/// A sentence of an entry, some levels deep.
pub fn sentence(chance: &mut Chance, entry: u8) -> Vec<String> {
    let levels = chance.below(5);
    written(chance, entry, |w| match entry {
        VALUE | CONSTANT => w.value(levels),
        TYPE => w.of_type(levels),
        SELECTION_SET => w.selection_set(levels),
        _ => unreachable!("the four grammar entries"),
    })
}

/// A sentence of exactly so many levels, at least one.
pub fn deep(chance: &mut Chance, entry: u8, levels: usize) -> Vec<String> {
    written(chance, entry, |w| match entry {
        VALUE | CONSTANT => w.deep_value(levels),
        TYPE => w.of_type(levels),
        SELECTION_SET => w.deep_selection_set(levels),
        _ => unreachable!("the four grammar entries"),
    })
}

/// A sentence with very many siblings, all alike if `plain`. A type has none.
pub fn wide(chance: &mut Chance, entry: u8, siblings: usize, plain: bool) -> Vec<String> {
    written(chance, entry, |w| {
        w.put(if entry == SELECTION_SET { "{" } else { "[" });
        for _ in 0..siblings {
            match entry {
                _ if plain => w.put("a"),
                SELECTION_SET => w.field(),
                _ => w.value(1),
            }
        }
        w.put(if entry == SELECTION_SET { "}" } else { "]" });
    })
}

/// One to three tokens left out, doubled, exchanged or put in.
pub fn damage(chance: &mut Chance, tokens: &mut Vec<String>) {
    for _ in 0..chance.from(1, 3) {
        let at = chance.below(tokens.len() + 1);
        let stray = chance.pick(&STRAY).to_string();
        match chance.below(5) {
            0 if at < tokens.len() => drop(tokens.remove(at)),
            1 if at < tokens.len() => tokens.insert(at, tokens[at].clone()),
            2 if at + 1 < tokens.len() => tokens.swap(at, at + 1),
            3 if at < tokens.len() => tokens[at] = stray,
            _ => tokens.insert(at, stray),
        }
    }
}
