//! One text through document 01's grammar and the crate's, in words.
use crate::departures::both_words;
use crate::grammar::Entry;
use crate::items::items_of;

pub fn show(entry: &str, text: &str, depth: &str) -> Result<(), String> {
    let entry = match entry {
        "value" => Entry::Value,
        "constant" => Entry::Constant,
        "type" => Entry::Type,
        "selection" => Entry::SelectionSet,
        _ => return Err(format!("{entry} is none of value, constant, type and selection")),
    };
    let depth: u64 = depth.parse().ok().filter(|d| *d <= 500).ok_or(format!("{depth} is no depth limit up to 500"))?;
    println!("    {}", both_words(entry, text, &items_of(text)?, depth)?);
    Ok(())
}
