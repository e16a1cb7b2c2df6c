//! Runs our library and the Rust crate on the same inputs and says where they disagree.

mod arrival;
mod case;
mod compound;
mod control;
mod header;
mod line;
mod nack;
mod record;
mod traffic;
mod twcc_read;
mod twcc_write;

use std::path::Path;
use std::process::ExitCode;
use std::time::Instant;

use case::{Book, Effort};
use record::Chapter;

/// A part: its name and what compares it.
type Part = (&'static str, fn(&Effort) -> Vec<Book>);

const PARTS: &[Part] = &[
    ("header", header::compare),
    ("compound", compound::compare),
    ("nack", nack::compare),
    ("twcc_read", twcc_read::compare),
    ("twcc_write", twcc_write::compare),
    ("arrival", arrival::compare),
];

const HELP: &str = "\
compare [--cases N] [--seed S] [--record FOLDER [--most N]] [--only NAME]

  --cases N        random cases a call, where that is more than its own number
  --seed S         the seed of the random cases (default 1)
  --record FOLDER  writes a sample of the cases, with what is expected of each, to data/answers there,
                   and what replaying them has to print to stdout
  --most N         about how many cases of a call are recorded (default 300)
  --only NAME      one part alone";

struct Wishes {
    effort: Effort,
    only: Option<String>,
    record: Option<String>,
    most: usize,
}

/// The wishes on the command line; `Ok(None)` asks for help.
fn wishes(mut words: impl Iterator<Item = String>) -> Result<Option<Wishes>, String> {
    let mut wishes = Wishes {
        effort: Effort {
            cases: 0,
            seed: 1,
            records: false,
        },
        only: None,
        record: None,
        most: 300,
    };
    while let Some(word) = words.next() {
        let mut value = || words.next().ok_or(format!("{word} wants a value"));
        match word.as_str() {
            "--help" => return Ok(None),
            "--cases" => wishes.effort.cases = number(&word, &value()?)?,
            "--seed" => wishes.effort.seed = number(&word, &value()?)?,
            "--record" => wishes.record = Some(value()?),
            "--most" => wishes.most = number(&word, &value()?)? as usize,
            "--only" => wishes.only = Some(part_name(value()?)?),
            _ => return Err(format!("unknown word: {word}")),
        }
    }
    wishes.effort.records = wishes.record.is_some();
    Ok(Some(wishes))
}

fn number(word: &str, value: &str) -> Result<u64, String> {
    value
        .parse()
        .map_err(|_| format!("{word} wants a whole number, not {value}"))
}

fn part_name(name: String) -> Result<String, String> {
    if PARTS.iter().any(|(part, _)| *part == name) {
        return Ok(name);
    }
    let names: Vec<&str> = PARTS.iter().map(|(part, _)| *part).collect();
    Err(format!("no part is called {name}: {}", names.join(", ")))
}

fn main() -> ExitCode {
    let wishes = match wishes(std::env::args().skip(1)) {
        Ok(Some(wishes)) => wishes,
        Ok(None) => {
            let names: Vec<&str> = PARTS.iter().map(|(part, _)| *part).collect();
            println!("{HELP}: {}", names.join(", "));
            return ExitCode::SUCCESS;
        }
        Err(message) => {
            eprintln!("compare: {message}\n{HELP}");
            return ExitCode::from(2);
        }
    };
    println!("call                  cases disagreements  listed differences met");
    let start = Instant::now();
    let mut books = vec![];
    for (name, compare) in PARTS {
        if wishes.only.as_ref().is_some_and(|only| only != name) {
            continue;
        }
        for book in compare(&wishes.effort) {
            println!("{book}");
            books.push(book);
        }
    }
    let cases: u64 = books.iter().map(Book::cases).sum();
    let disagreements: u64 = books.iter().map(Book::disagreements).sum();
    let seconds = start.elapsed().as_secs_f64();
    println!("total            {cases:>10} {disagreements:>13}  {seconds:.1} s");
    let caught: u64 = books.iter().map(Book::caught).sum();
    let missed: Vec<String> = books.iter().flat_map(Book::missed).collect();
    println!(
        "controls: {caught} outcomes wrong on purpose were noticed, {} were not",
        missed.len()
    );
    for control in &missed {
        println!("    not noticed: {control}");
    }
    if let Some(folder) = &wishes.record {
        if let Err(error) = record(folder, &books, wishes.most) {
            eprintln!("compare: {folder} can't be written to: {error}");
            return ExitCode::from(2);
        }
    }
    if disagreements == 0 && missed.is_empty() {
        ExitCode::SUCCESS
    } else {
        ExitCode::FAILURE
    }
}

/// Writes a recording of about so many cases of each book, and its table.
fn record(folder: &str, books: &[Book], most: usize) -> std::io::Result<()> {
    let chapters: Vec<Chapter> = books.iter().filter_map(|book| book.chapter(most)).collect();
    let folder = Path::new(folder);
    std::fs::write(folder.join("data/answers"), record::recording(&chapters))?;
    std::fs::write(folder.join("stdout"), record::table(&chapters))
}
