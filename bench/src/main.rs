//! bench tables: times our reader beside the crate's `lex`, in this one process.
//! bench texts: the names of the texts.
//! bench once SIDE TEXT: reads 1 MiB of a text once, for a counter of instructions. SIDE is crate_lex, our_read or our_utf8.
mod processor;
mod sides;
mod tables;
mod texts;
mod timing;

#[allow(dead_code)]
#[path = "../../oracle/src/chance.rs"]
mod chance;
#[allow(dead_code)]
#[path = "../../oracle/src/items.rs"]
mod items;

use std::process::ExitCode;

const USAGE: &str = "usage: bench tables | texts | once SIDE TEXT";

fn once(side: &str, name: &str) -> Option<()> {
    let text = texts::named(name)?(texts::MIB);
    match side {
        "crate_lex" => sides::crate_lex(&text),
        "our_read" => sides::our_read(&text),
        "our_utf8" => sides::our_utf8(&text),
        _ => return None,
    };
    Some(())
}

fn print_names() {
    for (name, _) in texts::TEXTS {
        println!("{name}");
    }
}

fn main() -> ExitCode {
    let words: Vec<String> = std::env::args().skip(1).collect();
    let words: Vec<&str> = words.iter().map(String::as_str).collect();
    match words[..] {
        ["tables"] => tables::print_all(),
        ["texts"] => print_names(),
        ["once", side, name] if once(side, name).is_some() => {}
        _ => {
            eprintln!("{USAGE}");
            return ExitCode::from(2);
        }
    }
    ExitCode::SUCCESS
}
