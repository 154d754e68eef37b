//! All texts that few pieces make.

/// All texts of `least` to `most` pieces, each between `before` and `after`.
pub struct Family {
    pub name: &'static str,
    before: &'static str,
    pieces: Vec<Vec<u8>>,
    after: &'static str,
    least: usize,
    most: usize,
}

fn strings(pieces: &[&str]) -> Vec<Vec<u8>> {
    pieces.iter().map(|p| p.as_bytes().to_vec()).collect()
}

/// Bytes at the edges of RFC 3629's classes, and a few that begin an item.
const EDGES: [u8; 27] = [
    0x00, 0x22, 0x23, 0x5C, 0x61, 0x7F, 0x80, 0x8F, 0x90, 0x9F, 0xA0, 0xBB, 0xBF, 0xC0, 0xC1, 0xC2, 0xDF, 0xE0, 0xE1, 0xEC, 0xED, 0xEF, 0xF0, 0xF1,
    0xF4, 0xF5, 0xFF,
];

const NUMBERS: [&str; 9] = ["0", "1", "-", ".", "e", "E", "+", "a", "_"];
const STRINGS: [&str; 13] = ["\"", "\\", "\\u", "\\u{", "}", "0", "D83D", "DE00", "4", "x", "\n", "\r", "u"];
const SECOND: [&str; 10] = ["D", "E", "0", "{", "}", "\"", "x", "\\", "\n", "u"];
const BRACED: [&str; 11] = ["0", "1", "D800", "10FFFF", "110000", "00000000", "}", "\"", "x", "\\", "\n"];
const BLOCKS: [&str; 7] = ["\"", "\"\"\"", "\\", "\\\"\"\"", "a", "\n", "é"];
const PUNCTUATION: [&str; 16] = ["!", "$", "&", "(", ")", ".", ":", "=", "@", "[", "]", "{", "|", "}", ",", "a"];
const DOTS: [&str; 9] = [".", "a", "1", "-", "\"", "{", "\n", "é", " "];
const IGNORED: [&str; 11] = ["#", "\n", "\r", "\u{FEFF}", "é", "€", "😀", "a", "\"", " ", "\t"];

/// The families; `quick` has fewer pieces in each text.
pub fn families(quick: bool) -> Vec<Family> {
    let most = |few, many| if quick { few } else { many };
    let family = |name, before, pieces: &[&str], after, least, most| Family { name, before, pieces: strings(pieces), after, least, most };
    vec![
        family("numbers", "", &NUMBERS, "", 0, most(6, 7)),
        family("strings", "", &STRINGS, "", 0, most(5, 6)),
        family("strings, opened", "\"", &STRINGS, "", most(5, 6), most(5, 6)),
        family("after a lead surrogate", "\"\\uD83D", &STRINGS, "\"", 0, most(4, 6)),
        family("in a second escape", "\"\\uD83D\\u", &SECOND, "\"", 0, most(5, 7)),
        family("in a braced escape", "\"\\u{", &BRACED, "\"", 0, most(4, 6)),
        family("block strings", "", &BLOCKS, "", 0, most(6, 8)),
        family("block strings, opened", "\"\"\"", &["\"", "\\", "a", "\n"], "", 0, most(8, 11)),
        family("punctuation", "", &PUNCTUATION, "", 0, most(4, 6)),
        family("dots", "", &DOTS, "", 0, most(5, 7)),
        family("ignored items and characters", "", &IGNORED, "", 0, most(5, 6)),
        Family { name: "bytes", before: "", pieces: (0..=255).map(|b| vec![b]).collect(), after: "", least: 0, most: most(2, 3) },
        Family { name: "edges of UTF-8", before: "", pieces: EDGES.iter().map(|b| vec![*b]).collect(), after: "", least: 0, most: most(3, 5) },
    ]
}

impl Family {
    pub fn pieces(&self) -> usize {
        self.pieces.len()
    }

    pub fn most(&self) -> usize {
        self.most
    }

    /// Hands over each text, those of fewer pieces first.
    pub fn each<E>(&self, mut take: impl FnMut(&[u8]) -> Result<(), E>) -> Result<(), E> {
        let mut text = Vec::new();
        for size in self.least..=self.most {
            let mut digits = vec![0; size];
            loop {
                text.clear();
                text.extend(self.before.as_bytes());
                for d in &digits {
                    text.extend(&self.pieces[*d]);
                }
                text.extend(self.after.as_bytes());
                take(&text)?;
                if !advance(&mut digits, self.pieces.len()) {
                    break;
                }
            }
        }
        Ok(())
    }
}

/// The next number of so many digits; false after the last.
pub fn advance(digits: &mut [usize], base: usize) -> bool {
    for d in digits.iter_mut().rev() {
        *d += 1;
        if *d < base {
            return true;
        }
        *d = 0;
    }
    false
}

/// Each Unicode scalar value: alone, and in one text at many places where a character of its own is looked at. With `quick`, one in 16.
pub fn each_scalar<E>(quick: bool, mut take: impl FnMut(&[u8]) -> Result<(), E>) -> Result<(), E> {
    for c in ('\0'..=char::MAX).step_by(if quick { 16 } else { 1 }) {
        take(c.to_string().as_bytes())?;
        take(format!("a{c}1{c}.{c}-{c}1.{c}1.5{c}1e{c}1e+{c}\"{c}\\{c}\" \"\\u{c}\" \"\\u{{{c}}}\" \"\\uD83D{c}\" \"\\uD83D\\{c}\"#{c}").as_bytes())?;
    }
    Ok(())
}

/// Each number of four hex digits in an escape: alone, as the second of a pair, as the first. Each braced number up to beyond the last
/// scalar value, and the powers of two with their neighbours, also with zeros in front. With `quick`, one in 16, but all near an edge.
pub fn each_escape<E>(quick: bool, mut take: impl FnMut(&[u8]) -> Result<(), E>) -> Result<(), E> {
    let wanted = |v: u128| !quick || v % 16 == 0 || (v + 4) & 0x3FF < 8;
    for v in (0..0x1_0000u128).filter(|v| wanted(*v)) {
        take(format!("\"\\u{v:04x}\"").as_bytes())?;
        take(format!("\"\\u{v:04X}.\"").as_bytes())?;
        take(format!("\"\\uD83D\\u{v:04X}\"").as_bytes())?;
        take(format!("\"\\u{v:04x}\\uDE00\"").as_bytes())?;
    }
    let powers = (20..128).flat_map(|k| [(1u128 << k) - 1, 1 << k, (1 << k) + 0x41]);
    for v in (0..0x11_1000u128).filter(|v| wanted(*v)).chain(powers) {
        take(format!("\"\\u{{{v:x}}}\"").as_bytes())?;
        take(format!("\"\\u{{{v:040X}}}\"").as_bytes())?;
    }
    Ok(())
}
