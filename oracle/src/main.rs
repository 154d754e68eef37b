//! oracle items: answers the cases on standard input, by the crate's lexer and document 01's table and grammar.
//! oracle compare REPLAY: holds the program REPLAY against the crate and document 01, on texts made here; with --host HOST also the program
//! HOST, which links the library, on texts too long for REPLAY.
//! oracle judge: holds the crate's grammar against document 01's, on texts made here.
//! oracle show ENTRY TEXT: what both of these say of a text.
mod answers;
mod cases;
mod chance;
mod compare;
mod departures;
mod exhaustive;
mod findings;
mod frames;
mod grammar;
mod items;
mod large;
mod parser;
mod pipe;
mod random;
mod sentences;
mod show;
mod token_strings;
mod trees;

use std::io::{self, BufReader, BufWriter, Write};
use std::process::ExitCode;

const USAGE: &str = "usage: oracle items <CASES >ANSWERS
       oracle compare [REPLAY] [--host HOST] [--quick] [--seed N] [--rows FILE] [--only SETS]
       oracle judge [--quick] [--seed N] [--rows FILE] [--only SETS]
       oracle show value|constant|type|selection TEXT [DEPTH]";

/// Answers each case of the input; an `Err` names the first that has no answer.
fn answer_all() -> Result<(), String> {
    let mut input = BufReader::new(io::stdin().lock());
    let mut output = BufWriter::new(io::stdout().lock());
    let mut bytes = Vec::new();
    let mut n = 0;
    while let Some((call, text)) = cases::read_case(&mut input).map_err(|e| format!("case {n}: {e}"))? {
        bytes.clear();
        answers::write_any(&call, &text, &mut bytes).map_err(|e| format!("case {n}: {e}"))?;
        output.write_all(&bytes).map_err(|e| e.to_string())?;
        // Whoever waits for these answers before going on gets them.
        if input.buffer().is_empty() {
            output.flush().map_err(|e| e.to_string())?;
        }
        n += 1;
    }
    output.flush().map_err(|e| e.to_string())
}

/// The identifiers in the first column of a table of differences: D-1 and so on.
fn rows(path: &str) -> Result<Vec<String>, String> {
    let table = std::fs::read_to_string(path).map_err(|e| format!("{path}: {e}"))?;
    let first = |line: &str| line.strip_prefix("| D-").and_then(|rest| rest.split(' ').next()).map(|n| format!("D-{n}"));
    Ok(table.lines().filter_map(first).collect())
}

fn choice(words: &[&str]) -> Result<compare::Choice, String> {
    let mut choice = compare::Choice { replay: None, host: None, quick: false, seed: 1, rows: Vec::new(), only: String::new() };
    let mut words = words.iter();
    while let Some(word) = words.next() {
        match *word {
            "--quick" => choice.quick = true,
            "--seed" => choice.seed = words.next().and_then(|n| n.parse().ok()).ok_or(USAGE)?,
            "--rows" => choice.rows = rows(words.next().ok_or(USAGE)?)?,
            "--host" => choice.host = Some(words.next().ok_or(USAGE)?.to_string()),
            "--only" => choice.only = words.next().ok_or(USAGE)?.to_string(),
            path if choice.replay.is_none() && !path.starts_with("--") => choice.replay = Some(path.to_string()),
            _ => return Err(USAGE.to_string()),
        }
    }
    Ok(choice)
}

fn run(words: &[&str]) -> Result<bool, String> {
    match words {
        ["items"] => answer_all().map(|()| true),
        ["compare", rest @ ..] => {
            let choice = choice(rest)?;
            if choice.replay.is_none() && choice.host.is_none() {
                return Err(USAGE.to_string());
            }
            let large = choice.host.as_deref().map_or(Ok(true), |host| large::compare(host, choice.seed))?;
            let replayed = choice.replay.is_none() || compare::compare(&choice)?;
            Ok(large && replayed)
        }
        ["judge", rest @ ..] => match choice(rest)? {
            choice if choice.replay.is_some() => Err(USAGE.to_string()),
            choice if choice.only.is_empty() => compare::compare(&compare::Choice { only: "grammar".to_string(), ..choice }),
            choice if !choice.only.starts_with("grammar") => Err("without REPLAY, only sets of the grammar are run".to_string()),
            choice => compare::compare(&choice),
        },
        ["show", entry, text] => show::show(entry, text, "500").map(|()| true),
        ["show", entry, text, depth] => show::show(entry, text, depth).map(|()| true),
        _ => Err(USAGE.to_string()),
    }
}

/// Exit status: 0 done, and nothing differs but what has a row; 1 something else differs; 2 it could not be found out.
fn main() -> ExitCode {
    let words: Vec<String> = std::env::args().skip(1).collect();
    let words: Vec<&str> = words.iter().map(String::as_str).collect();
    match run(&words) {
        Ok(true) => ExitCode::SUCCESS,
        Ok(false) => ExitCode::FAILURE,
        Err(line) => {
            eprintln!("oracle: {line}");
            ExitCode::from(2)
        }
    }
}
