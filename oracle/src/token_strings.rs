//! All strings of few tokens, for each grammar entry.
use crate::cases::{CONSTANT, SELECTION_SET, TYPE, VALUE};
use crate::chance::Chance;

/// All strings of up to `most` of these tokens, after those in `before`.
pub struct Vocabulary {
    pub name: &'static str,
    pub entry: u8,
    before: &'static [&'static str],
    pub tokens: &'static [&'static str],
    /// Up to so many tokens, each string is called in many ways.
    pub detail: usize,
    pub most: usize,
}

const VALUES: [&str; 13] = ["[", "]", "{", "}", ":", "$", "a", "1", "1.5", "\"s\"", "true", "null", ")"];
const NESTS: [&str; 7] = ["[", "]", "{", "}", ":", "a", "$"];
const TYPES: [&str; 4] = ["[", "]", "!", "a"];
const AFTER_TYPES: [&str; 8] = ["[", "]", "!", "a", "on", "1", "=", "@"];
const SELECTIONS: [&str; 13] = ["{", "}", "(", ")", ":", "@", "...", "a", "on", "$", "1", "[", "]"];
const FRAGMENTS: [&str; 7] = ["{", "}", "a", "...", "on", "@", ":"];
const ARGUMENTS: [&str; 9] = ["a", ":", "1", "[", "]", "{", "}", ")", "$"];
/// Each kind of token, the words that have a meaning, and two error items.
const KINDS: [&str; 26] = [
    "!",
    "$",
    "&",
    "(",
    ")",
    "...",
    ":",
    "=",
    "@",
    "[",
    "]",
    "{",
    "|",
    "}",
    "a",
    "on",
    "true",
    "false",
    "null",
    "\"s\"",
    "\"\"\"b\"\"\"",
    "1",
    "-1.5",
    "fragment",
    "?",
    "-",
];

pub fn vocabularies(quick: bool) -> Vec<Vocabulary> {
    let most = |few, many| if quick { few } else { many };
    let detail = most(3, 4);
    let of = |name, entry, before, tokens, most| Vocabulary { name, entry, before, tokens, detail, most };
    let mut all = vec![
        of("values", VALUE, &[], &VALUES[..], most(4, 6)),
        of("constants", CONSTANT, &[], &VALUES, most(4, 6)),
        of("nested values", VALUE, &[], &NESTS, most(5, 7)),
        of("nested constants", CONSTANT, &[], &NESTS, most(5, 7)),
        of("types", TYPE, &[], &TYPES, most(7, 9)),
        of("types and what follows them elsewhere", TYPE, &[], &AFTER_TYPES, most(5, 6)),
        of("selection sets", SELECTION_SET, &[], &SELECTIONS, most(4, 6)),
        of("fragments", SELECTION_SET, &[], &FRAGMENTS, most(5, 7)),
        of("fragments, opened", SELECTION_SET, &["{", "..."], &FRAGMENTS, most(5, 7)),
        of("arguments, opened", SELECTION_SET, &["{", "a", "("], &ARGUMENTS, most(4, 6)),
        of("arguments of directives, opened", SELECTION_SET, &["{", "a", "@", "a", "("], &ARGUMENTS, most(4, 6)),
    ];
    for (name, entry) in [("a value", VALUE), ("a constant", CONSTANT), ("a type", TYPE), ("a selection set", SELECTION_SET)] {
        all.push(Vocabulary { detail: 2, ..of(name, entry, &[], &KINDS, most(3, 4)) });
    }
    all
}

impl Vocabulary {
    /// Hands over each string with its number of chosen tokens, those of fewer first.
    pub fn each<E>(&self, mut take: impl FnMut(&[&str], usize) -> Result<(), E>) -> Result<(), E> {
        for size in 0..=self.most {
            let mut digits = vec![0; size];
            let mut string = self.before.to_vec();
            loop {
                string.truncate(self.before.len());
                string.extend(digits.iter().map(|d| self.tokens[*d]));
                take(&string, size)?;
                if !crate::exhaustive::advance(&mut digits, self.tokens.len()) {
                    break;
                }
            }
        }
        Ok(())
    }
}

/// What may stand between tokens, and at both ends. The empty one stays so only where two tokens do not run together.
const GAPS: [&str; 7] = [" ", ",", "#c\n", "", "\n\t\u{FEFF}", " ,# ,\r\n,", ",,"];
/// The ways to join tokens: one gap throughout for each of `GAPS`, and any.
pub const WAYS: usize = GAPS.len() + 1;

pub fn join(chance: &mut Chance, way: usize, tokens: &[&str]) -> String {
    let mut text = String::new();
    let gap = |chance: &mut Chance| GAPS.get(way).copied().unwrap_or_else(|| chance.pick(&GAPS));
    let ends = way > 0 && chance.once_in(2);
    if ends {
        text.push_str(gap(chance));
    }
    for (i, token) in tokens.iter().enumerate() {
        if i > 0 {
            let gap = gap(chance);
            text.push_str(if gap.is_empty() && run_together(tokens[i - 1], token) { " " } else { gap });
        }
        text.push_str(token);
    }
    if ends {
        text.push_str(gap(chance));
    }
    text
}

fn run_together(first: &str, second: &str) -> bool {
    let word = |c: char| c.is_ascii_alphanumeric() || c == '_' || c == '-' || c == '.';
    let number = |c: char| c.is_ascii_digit() || c == '-';
    match (first, second) {
        ("...", _) => false,
        (_, "...") => first.starts_with(number),
        _ => first.ends_with(word) && second.starts_with(word) || first.ends_with('"') && second.starts_with('"'),
    }
}
