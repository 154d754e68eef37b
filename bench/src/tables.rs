//! The tables, as docs/PERFORMANCE.md has them.
use crate::sides::{agree, crate_lex, our_read, our_utf8, std_utf8, Side};
use crate::texts::{self, Text, KIB, MIB};
use crate::timing::{in_turn, Times};
use std::time::Duration;

fn ms(time: Duration) -> String {
    format!("{:.2}", time.as_secs_f64() * 1e3)
}

/// The median, and the shortest and longest in brackets.
fn with_spread(times: &Times) -> String {
    format!("{} ({} to {})", ms(times.median()), ms(times.least()), ms(times.most()))
}

fn ns_per_byte(times: &Times, size: usize) -> f64 {
    times.least().as_secs_f64() * 1e9 / size as f64
}

fn heading(title: &str, first: &str, other: &str) {
    println!("\n## {title}\n");
    println!("| {first} | {other}, ms | Ours, ms | Ratio of medians | Ratio of least | By the clock | {other}, least ns per byte | Ours |");
    println!("|---|---|---|---|---|---|---|---|");
}

fn ratio(ours: Duration, theirs: Duration) -> f64 {
    ours.as_secs_f64() / theirs.as_secs_f64()
}

fn row(label: &str, other: Side, ours: Side, text: &str) {
    let [theirs, ours] = in_turn([other, ours], text);
    println!(
        "| {label} | {} | {} | {:.2} | {:.2} | {:.2} | {:.2} | {:.2} |",
        with_spread(&theirs.processor),
        with_spread(&ours.processor),
        ratio(ours.processor.median(), theirs.processor.median()),
        ratio(ours.processor.least(), theirs.processor.least()),
        ratio(ours.clock.median(), theirs.clock.median()),
        ns_per_byte(&theirs.processor, text.len()),
        ns_per_byte(&ours.processor, text.len())
    );
}

/// All items of a text, on which both sides must agree.
fn items(label: &str, text: Text, size: usize) {
    let text = text(size);
    agree(&text);
    let label = format!("{label}, {} items", our_read(&text));
    row(&label, crate_lex, our_read, &text);
}

pub fn print_all() {
    heading("The text of Q-13, measured three times", "4 MiB", "The crate");
    for _ in 0..3 {
        items("mixed", texts::mixed, 4 * MIB);
    }

    heading("How time grows", "The same text, size", "The crate");
    for size in [64 * KIB, 256 * KIB, MIB, 4 * MIB, 16 * MIB] {
        items(&format!("{} KiB", size / KIB), texts::mixed, size);
    }

    heading("Text by text", "4 MiB", "The crate");
    for (name, text) in &texts::TEXTS[1..10] {
        items(name, *text, 4 * MIB);
    }

    heading("Worst texts", "Text", "The crate");
    items("all_quotes, 16 MiB", texts::all_quotes, 16 * MIB);
    items("all_braces, 16 MiB", texts::all_braces, 16 * MIB);
    items("one_name, 16 MiB", texts::one_name, 16 * MIB);
    items("one_string, 16 MiB", texts::one_string, 16 * MIB);
    // The crate's errors hold two strings each: 16 MiB of them would take some 2 GB.
    items("all_errors, 4 MiB", texts::all_errors, 4 * MIB);

    heading("UTF-8 alone", "4 MiB", "Rust's `from_utf8`");
    row("mixed", std_utf8, our_utf8, &texts::mixed(4 * MIB));
    row("chinese_strings", std_utf8, our_utf8, &texts::chinese_strings(4 * MIB));
}
