//! The large comparison: texts without end through the crate here and through `replay`, and every byte of the answers compared.
mod grammar;
mod items;

use crate::answers::{limit_differs, read_text, write_answer, write_part, Reading};
use crate::cases::{write_case, Call, PART};
use crate::chance::Chance;
use crate::findings::{answer_words, class_of, Findings};
use crate::pipe::Replay;
use std::panic::{catch_unwind, AssertUnwindSafe};
use std::time::{Duration, Instant};

/// The longest text and tape that `replay` takes.
const MOST_TEXT: usize = 1_048_577;
const MOST_TAPE: usize = 2_097_152;
/// How long a finding's text is made smaller.
const SHRINKING: Duration = Duration::from_secs(5);
const LIMIT_AT_END: &str = "D-1, the place of a limit that the text's end follows";
/// A batch is handed over when its cases or answers pass this.
const BATCH: usize = 1 << 18;

pub struct Choice {
    /// The program to compare; without one, the crate's grammar is held against document 01's.
    pub replay: Option<String>,
    /// A program that links the library, for the largest texts.
    pub host: Option<String>,
    pub quick: bool,
    pub seed: u64,
    /// The identifiers of the differences that are known.
    pub rows: Vec<String>,
    /// The sets of texts whose names begin so are run.
    pub only: String,
}

/// Where a call's text and answer stand in a batch.
struct Mark {
    call: Call,
    text: std::ops::Range<usize>,
    answer: std::ops::Range<usize>,
}

struct Comparison {
    replay: Option<Replay>,
    path: String,
    only: String,
    chance: Chance,
    cases: Vec<u8>,
    expected: Vec<u8>,
    marks: Vec<Mark>,
    findings: Findings,
    texts: u64,
    calls: u64,
    /// How often each item code was in a text, and each number in an answer.
    codes: [u64; 256],
    numbers: [u64; 12],
    begun: Instant,
    said: Instant,
}

impl Comparison {
    fn new(choice: &Choice) -> Result<Comparison, String> {
        Ok(Comparison {
            replay: choice.replay.as_deref().map(Replay::start).transpose()?,
            path: choice.replay.clone().unwrap_or_default(),
            only: choice.only.clone(),
            chance: Chance::new(choice.seed),
            cases: Vec::new(),
            expected: Vec::new(),
            marks: Vec::new(),
            findings: Findings::default(),
            texts: 0,
            calls: 0,
            codes: [0; 256],
            numbers: [0; 12],
            begun: Instant::now(),
            said: Instant::now(),
        })
    }

    fn crate_fails(&mut self, call: &Call, text: &[u8], class: &str, words: String) -> Result<(), String> {
        self.findings.add(class.to_string(), call, text, words);
        Ok(())
    }

    fn call(&mut self, call: &Call, text: &[u8], reading: &Reading) -> Result<(), String> {
        match limit_differs(call, reading) {
            Ok(false) => {}
            Ok(true) => self.findings.add(LIMIT_AT_END.to_string(), call, text, "the crate reports the length minus 1".to_string()),
            Err(words) => return self.crate_fails(call, text, "the crate's limit", words),
        }
        let answer = self.expected.len();
        write_answer(call, reading, &mut self.expected)?;
        self.numbers[usize::from(self.expected[answer + 7])] += 1;
        self.mark(call, text, answer);
        Ok(())
    }

    fn mark(&mut self, call: &Call, text: &[u8], answer: usize) {
        write_case(call, text, &mut self.cases);
        let end = self.cases.len();
        self.marks.push(Mark { call: *call, text: end - text.len()..end, answer: answer..self.expected.len() });
        self.calls += 1;
    }

    /// Hands the batch over and compares.
    fn flush(&mut self) -> Result<(), String> {
        let answers = match &mut self.replay {
            Some(replay) => replay.answers(self.cases.clone(), self.expected.len())?,
            None => self.expected.clone(),
        };
        if answers != self.expected {
            for mark in &self.marks {
                let text = &self.cases[mark.text.clone()];
                let Some(given) = answers.get(mark.answer.clone()) else {
                    return Err(format!("replay ends at {} {:?}", crate::findings::notation(&text[..text.len().min(200)]), mark.call));
                };
                let expected = &self.expected[mark.answer.clone()];
                if given != expected {
                    let words = difference(&mark.call, expected, given);
                    self.findings.add(class_of(&mark.call, expected, given), &mark.call, text, words);
                }
            }
        }
        self.cases.clear();
        self.expected.clear();
        self.marks.clear();
        if self.said.elapsed().as_secs() >= 60 {
            self.said = Instant::now();
            eprintln!("  ... {} texts, {} calls, {} s", self.texts, self.calls, self.begun.elapsed().as_secs());
        }
        Ok(())
    }

    /// Runs a set of texts, if it is chosen, and says how many it had.
    fn set(&mut self, name: &str, run: impl FnOnce(&mut Self) -> Result<(), String>) -> Result<(), String> {
        if !name.starts_with(&self.only) {
            return Ok(());
        }
        let (texts, calls, begun) = (self.texts, self.calls, Instant::now());
        run(self)?;
        self.flush()?;
        println!("{name}: {} texts, {} calls, {:.1} s", self.texts - texts, self.calls - calls, begun.elapsed().as_secs_f64());
        Ok(())
    }

    /// Makes each finding's text smaller as long as it stays of its class, and puts what was found in words.
    fn shrink(&mut self) {
        for (class, finding) in self.findings.0.iter_mut().filter(|(class, _)| *class != LIMIT_AT_END) {
            if let Some((_, words)) = grammar::again(class, &finding.call, &finding.text) {
                finding.words = words;
            }
            let mut size = finding.text.len() / 2;
            let begun = Instant::now();
            let go_on = || begun.elapsed() < SHRINKING;
            while size > 0 && go_on() {
                let mut at = 0;
                while at + size <= finding.text.len() && go_on() {
                    let mut text = finding.text.clone();
                    text.drain(at..at + size);
                    match grammar::again(class, &finding.call, &text).or_else(|| alone(&self.path, &finding.call, &text)) {
                        Some((found, words)) if found == *class => (finding.text, finding.words) = (text, words),
                        _ => at += size,
                    }
                }
                size /= 2;
            }
        }
    }
}

/// A call for one text, by a process of its own: the class of its difference, if any.
fn alone(path: &str, call: &Call, text: &[u8]) -> Option<(String, String)> {
    let mut expected = Vec::new();
    if call.entry == PART {
        write_part(call, text, &mut expected);
    } else {
        let reading = catch_unwind(AssertUnwindSafe(|| read_text(text))).ok()?.ok()?;
        write_answer(call, &reading, &mut expected).ok()?;
    }
    let mut case = Vec::new();
    write_case(call, text, &mut case);
    match Replay::start(path).and_then(|replay| replay.last_answers(case)) {
        Err(words) => Some(("replay fails".to_string(), words)),
        Ok(given) if given == expected => None,
        Ok(given) if call.entry != PART && given.len() != expected.len() || given.len() < 8 => {
            Some(("an answer's size".to_string(), format!("{} bytes expected, {} given", expected.len(), given.len())))
        }
        Ok(given) => Some((class_of(call, &expected, &given), difference(call, &expected, &given))),
    }
}

fn difference(call: &Call, expected: &[u8], given: &[u8]) -> String {
    format!("expected {}\n    given    {}", answer_words(call, expected), answer_words(call, given))
}

/// Runs the whole plan; true if nothing differs but what has a row.
pub fn compare(choice: &Choice) -> Result<bool, String> {
    println!("seed {}", choice.seed);
    let mut c = Comparison::new(choice)?;
    items::item_texts(&mut c, choice.quick)?;
    grammar::grammar_texts(&mut c, choice.quick)?;
    if c.texts == 0 {
        return Err(format!("no set of texts has a name that begins with {:?}", choice.only));
    }

    println!("\nin all: {} texts, {} calls, {:.0} s", c.texts, c.calls, c.begun.elapsed().as_secs_f64());
    let listed = |counts: &[u64]| counts.iter().enumerate().filter(|(_, n)| **n > 0).map(|(i, n)| format!("{i}: {n}")).collect::<Vec<_>>().join(", ");
    println!("items by code: {}", listed(&c.codes));
    println!("answers by number: {}", listed(&c.numbers));
    c.shrink();
    c.findings.print();
    let unknown = c.findings.without_row(&choice.rows);
    println!("\n{} classes of difference, {unknown} of them without a row", c.findings.0.len());
    let rest = c.replay.map_or(Ok(Vec::new()), |replay| replay.last_answers(Vec::new()))?;
    if !rest.is_empty() {
        return Err(format!("replay wrote {} bytes after its last answer", rest.len()));
    }
    Ok(unknown == 0)
}
