//! Texts that `replay` does not take, up to the longest that is read and one byte past it, through a host that links the library: the program
//! that host/c/build makes. What it prints is held against the crate's items and document 01's numbers, line by line.
use crate::chance::Chance;
use crate::items::{items_of, Item};
use crate::random;
use std::io::{BufRead, BufReader};
use std::path::{Path, PathBuf};
use std::process::{Command, Stdio};

const LONGEST: usize = 16_777_216;

/// A text and how the host is called with it.
struct Large {
    name: &'static str,
    text: Vec<u8>,
    entry: u64,
    limit: usize,
    room: usize,
}

fn all(name: &'static str, text: Vec<u8>) -> Large {
    Large { name, text, entry: 0, limit: usize::MAX, room: usize::MAX }
}

fn placed_name(start: usize) -> Vec<u8> {
    let mut text = vec![b' '; start];
    text.extend(b"name");
    text
}

fn quoted(size: usize) -> Vec<u8> {
    let mut text = vec![b'x'; size];
    text[0] = b'"';
    text[size - 1] = b'"';
    text
}

fn texts(chance: &mut Chance) -> Vec<Large> {
    let mut mixed = random::long(chance, LONGEST - 100_000);
    mixed.resize(mixed.len().max(LONGEST), b' ');
    mixed.truncate(LONGEST);
    while std::str::from_utf8(&mixed).is_err() {
        mixed.pop();
    }
    let mut cut = vec![b'a'; LONGEST];
    cut[LONGEST - 1] = 0xC3;
    vec![
        all("a name at byte 65,535", placed_name(65_535)),
        all("a name at byte 65,536", placed_name(65_536)),
        all("a name of 16,777,216 bytes", vec![b'a'; LONGEST]),
        all("a name of 16,777,217 bytes", vec![b'a'; LONGEST + 1]),
        all("a string of 16,777,216 bytes", quoted(LONGEST)),
        all("16,777,216 braces", vec![b'{'; LONGEST]),
        all("a character cut at byte 16,777,216", cut),
        Large { limit: 1_000_000, ..all("queries, with a limit", mixed.clone()) },
        Large { room: 1_000_000, ..all("queries, with little room", mixed.clone()) },
        Large { entry: 1, ..all("queries, by entry 1", mixed.clone()) },
        all("queries", mixed),
    ]
}

/// The lines that the host is to print: the answer, and an item on each.
fn expected(case: &Large) -> Result<(String, Vec<Item>), String> {
    let answer = |number: u64, place: usize, items: usize| format!("number {number} place {place} items {items} events 0");
    if case.entry != 0 {
        return Ok((answer(11, 0, 0), Vec::new()));
    }
    if case.text.len() > LONGEST {
        return Ok((answer(2, 0, 0), Vec::new()));
    }
    let text = match std::str::from_utf8(&case.text) {
        Ok(text) => text,
        Err(fault) => return Ok((answer(3, fault.valid_up_to(), 0), Vec::new())),
    };
    let mut items = items_of(text)?;
    let most = case.limit.min(case.room);
    if items.len() <= most {
        return Ok((answer(0, text.len(), items.len()), items));
    }
    let place = items[most].start;
    items.truncate(most);
    Ok((answer(if case.limit <= case.room { 4 } else { 5 }, place, most), items))
}

/// Where what the host prints is not what is expected, if anywhere.
fn difference(host: &str, file: &Path, case: &Large) -> Result<Option<String>, String> {
    std::fs::write(file, &case.text).map_err(|e| format!("{}: {e}", file.display()))?;
    let mut command = Command::new(host);
    command.args(["--entry", &case.entry.to_string(), "--limit", &(case.limit as u64).to_string(), "--room", &(case.room as u64).to_string()]);
    let mut child = command.arg(file).stdout(Stdio::piped()).spawn().map_err(|e| format!("{host}: {e}"))?;
    let mut given = BufReader::new(child.stdout.take().expect("it is piped")).lines();
    let (answer, items) = expected(case)?;
    let lines = std::iter::once(answer).chain(items.iter().map(|i| format!("{} {} {}", i.code, i.start, i.start + i.length)));
    let mut found = None;
    for line in lines {
        let said = given.next().transpose().map_err(|e| e.to_string())?.unwrap_or_default();
        if said != line {
            found = Some(format!("expected {line}\n    given    {said}"));
            break;
        }
    }
    if found.is_none() {
        found = given.next().transpose().map_err(|e| e.to_string())?.map(|line| format!("a line too many: {line}"));
    }
    drop(given);
    child.wait().map_err(|e| e.to_string())?;
    Ok(found)
}

/// The file beside this program's folder that the host reads; it is gone afterwards.
fn place() -> Result<PathBuf, String> {
    let own = std::env::current_exe().map_err(|e| e.to_string())?;
    Ok(own.with_file_name("large.graphql"))
}

/// True if nothing differs.
pub fn compare(host: &str, seed: u64) -> Result<bool, String> {
    let file = place()?;
    let texts = texts(&mut Chance::new(seed));
    let mut same = true;
    for case in &texts {
        if let Some(words) = difference(host, &file, case)? {
            println!("\nlarge, {}:\n    {words}", case.name);
            same = false;
        }
    }
    std::fs::remove_file(&file).map_err(|e| format!("{}: {e}", file.display()))?;
    println!("large, through the host: {} texts", texts.len());
    Ok(same)
}
