//! Texts to read, of any size in bytes. Each is without errors, but where its name says otherwise.
use crate::chance::Chance;

pub const KIB: usize = 1 << 10;
pub const MIB: usize = 1 << 20;

pub type Text = fn(usize) -> String;

/// Every text, by the name that the tables have.
pub const TEXTS: [(&str, Text); 15] = [
    ("mixed", mixed),
    ("names", names),
    ("punctuation", punctuation),
    ("numbers", numbers),
    ("blanks", blanks),
    ("comments", comments),
    ("long_strings", long_strings),
    ("block_strings", block_strings),
    ("chinese_strings", chinese_strings),
    ("emoji_strings", emoji_strings),
    ("all_quotes", all_quotes),
    ("all_braces", all_braces),
    ("one_name", one_name),
    ("one_string", one_string),
    ("all_errors", all_errors),
];

pub fn named(name: &str) -> Option<Text> {
    TEXTS.iter().find(|(n, _)| *n == name).map(|(_, text)| *text)
}

/// Pieces one after the other, as long as they fit, and spaces.
fn filled(size: usize, mut piece: impl FnMut(&mut Chance) -> String) -> String {
    let mut chance = Chance::new(1);
    let mut text = String::with_capacity(size);
    loop {
        let next = piece(&mut chance);
        if text.len() + next.len() > size {
            break;
        }
        text += &next;
    }
    text.extend(std::iter::repeat_n(' ', size - text.len()));
    text
}

fn name(chance: &mut Chance) -> String {
    let start = b"abcdefghijklmnopqrstuvwxyzABCDEFGHIJKLMNOPQRSTUVWXYZ_";
    let later = b"abcdefghijklmnopqrstuvwxyzabcdefghijklmnopqrstuvwxyzABCDEFGHIJKLMNOPQRSTUVWXYZ_0123456789";
    let mut name = char::from(start[chance.below(start.len())]).to_string();
    for _ in 0..chance.below(15) {
        name.push(char::from(later[chance.below(later.len())]));
    }
    name
}

fn punctuator(chance: &mut Chance) -> &'static str {
    chance.pick(&["!", "$", "&", "(", ")", "...", ":", "=", "@", "[", "]", "{", "|", "}", ","])
}

fn gap(chance: &mut Chance) -> &'static str {
    chance.pick(&[" ", " ", " ", "\n  ", "\n    "])
}

/// Words as in a chapter, now and then an escape or a character of several bytes.
fn long_string(chance: &mut Chance) -> String {
    let mut string = "\"".to_string();
    for _ in 0..chance.from(40, 160) {
        for _ in 0..chance.from(1, 9) {
            string.push(char::from(b'a' + chance.below(26) as u8));
        }
        string += match chance.below(40) {
            0 => " \\\"",
            1 => "\\n",
            2 => " — ",
            3 => "é ",
            4 => "\\u00e9 ",
            5..=8 => ", ",
            _ => " ",
        };
    }
    string + "\""
}

/// The text of Q-13, half of it in long strings: names, a punctuator or a gap after each, and after some sixty of them a long string.
pub fn mixed(size: usize) -> String {
    filled(size, |chance| match chance.below(60) {
        0 => long_string(chance),
        n if n % 2 == 0 => name(chance) + punctuator(chance),
        _ => name(chance) + gap(chance),
    })
}

pub fn names(size: usize) -> String {
    filled(size, |chance| name(chance) + " ")
}

pub fn punctuation(size: usize) -> String {
    filled(size, |chance| punctuator(chance).to_string())
}

pub fn long_strings(size: usize) -> String {
    filled(size, |chance| long_string(chance) + " ")
}

/// Runs of blanks with a comma between.
pub fn blanks(size: usize) -> String {
    filled(size, |chance| " ".repeat(chance.from(1, 60)) + "\n,")
}

pub fn numbers(size: usize) -> String {
    filled(size, |chance| chance.pick(&["0 ", "-17 ", "123456 ", "3.25 ", "-6.0221e+23 ", "1e10 "]).to_string())
}

pub fn comments(size: usize) -> String {
    filled(size, |chance| "# who reads this? ".repeat(chance.from(1, 10)) + "\n")
}

/// Lines of words, now and then a quote or an escape of three.
pub fn block_strings(size: usize) -> String {
    filled(size, |chance| {
        let lines: Vec<&str> =
            (0..chance.from(1, 40)).map(|_| chance.pick(&["Once there was a house.\n", "\"No\", it said.\n", "A \\\"\"\" in it.\n"])).collect();
        ["\"\"\"", &lines.concat(), "\"\"\"\n"].concat()
    })
}

/// Three bytes for a character.
pub fn chinese_strings(size: usize) -> String {
    filled(size, |chance| ["\"", &"从前有一座房子。".repeat(chance.from(1, 60)), "\" "].concat())
}

/// Four bytes for a character.
pub fn emoji_strings(size: usize) -> String {
    filled(size, |chance| ["\"", &"📖🌙".repeat(chance.from(1, 200)), "\" "].concat())
}

/// Block strings of six quotes.
pub fn all_quotes(size: usize) -> String {
    "\"".repeat(size)
}

pub fn all_braces(size: usize) -> String {
    "{".repeat(size)
}

pub fn one_name(size: usize) -> String {
    "n".repeat(size)
}

pub fn one_string(size: usize) -> String {
    ["\"", &"s".repeat(size - 2), "\""].concat()
}

/// An error at every byte.
pub fn all_errors(size: usize) -> String {
    "?".repeat(size)
}
