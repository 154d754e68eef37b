//! gateway [FILE]: takes a query with a long string as its argument `text`, the chapter, and cuts it by the spans of its items.
//!
//! The chapter is passed on to the voice, byte for byte and with its place, so that a word that is being read can be found in the query.
//! The query is passed on to the server with an empty string where the chapter stood.
use paumelu::{Item, Items, Kind};
use std::process::ExitCode;

const QUERY: &str = r#"query Evening {
  chapter(book: 7, # the chapter as it is read aloud
          text: "Once there was a \"small\" house — at the end of a long road, and in it lived someone who could not sleep.") {
    words { start length }
  }
}
"#;

/// No part of a sentence.
fn ignored(item: &Item) -> bool {
    matches!(item.kind(), Kind::Whitespace | Kind::Comment | Kind::Comma)
}

/// The string that is the argument `text`.
fn chapter(query: &str, items: Items<'_>) -> Option<Item> {
    let tokens: Vec<Item> = items.iter().filter(|item| !ignored(item)).collect();
    let argument = tokens.windows(3).find(|three| {
        let kinds = [three[0].kind(), three[1].kind(), three[2].kind()];
        kinds == [Kind::Name, Kind::Colon, Kind::StringValue] && three[0].part_str(query) == "text"
    });
    argument.map(|three| three[2])
}

fn pass_on(query: &str) -> Result<(), String> {
    let mut tape = paumelu::tape_for(query.as_bytes());
    let (answer, items) = paumelu::read_items(query.as_bytes(), u64::MAX, &mut tape);
    if answer.number != paumelu::DONE {
        return Err(format!("refused with {} at byte {}", answer.number, answer.place));
    }
    if let Some(error) = items.iter().find(|item| matches!(item.kind(), Kind::Error(_))) {
        return Err(format!("{:?} at bytes {:?}", error.kind(), error.span()));
    }
    let chapter = chapter(query, items).ok_or("no string is the argument `text`")?;
    println!("to the voice, bytes {:?} of {}:\n{}\n", chapter.span(), query.len(), chapter.part_str(query));
    println!("to the server:\n{}\"\"{}", &query[..chapter.span().start], &query[chapter.span().end..]);
    Ok(())
}

fn main() -> ExitCode {
    let query = match std::env::args().nth(1) {
        Some(file) => std::fs::read_to_string(&file).map_err(|e| format!("{file}: {e}")),
        None => Ok(QUERY.to_string()),
    };
    match query.and_then(|query| pass_on(&query)) {
        Ok(()) => ExitCode::SUCCESS,
        Err(line) => {
            eprintln!("gateway: {line}");
            ExitCode::FAILURE
        }
    }
}
