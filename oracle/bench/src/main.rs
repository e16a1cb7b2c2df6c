//! Measures our library over its C interface beside the Rust crate, row by row, in one run.

mod arrival;
mod compound;
mod nack;
mod row;
mod twcc_read;
mod twcc_write;

use std::process::ExitCode;

use row::{Row, Side};

/// A part: its name and its rows.
type Part = (&'static str, fn() -> Vec<Row>);

const PARTS: &[Part] = &[
    ("compound", compound::rows),
    ("nack", nack::rows),
    ("twcc_read", twcc_read::rows),
    ("twcc_write", twcc_write::rows),
    ("arrival", arrival::rows),
];

const HELP: &str = "\
bench                    all rows as Markdown tables, one a part
bench --only PART        the rows of one part
bench --rows             the names of the rows
bench --count ROW SIDE N one row on one side (ours, rust) N times, for a tool that counts instructions";

fn main() -> ExitCode {
    let words: Vec<String> = std::env::args().skip(1).collect();
    let words: Vec<&str> = words.iter().map(String::as_str).collect();
    match obey(&words) {
        Ok(()) => ExitCode::SUCCESS,
        Err(message) => {
            eprintln!("bench: {message}\n{HELP}");
            ExitCode::from(2)
        }
    }
}

fn obey(words: &[&str]) -> Result<(), String> {
    match words {
        [] => PARTS.iter().for_each(measure),
        ["--only", name] => {
            let part = PARTS.iter().find(|(part, _)| part == name);
            measure(part.ok_or(format!("no part is called {name}"))?);
        }
        ["--rows"] => all_rows().for_each(|row| println!("{}", row.name)),
        ["--count", name, side, times] => {
            let row = all_rows().find(|row| row.name == *name);
            let row = row.ok_or(format!("no row is called {name}"))?;
            let times = times
                .parse()
                .map_err(|_| format!("not a whole number: {times}"))?;
            row.run(side_called(side)?, times);
        }
        ["--help"] => println!("{HELP}"),
        _ => return Err(format!("unknown words: {}", words.join(" "))),
    }
    Ok(())
}

fn side_called(name: &str) -> Result<Side, String> {
    match name {
        "ours" => Ok(Side::Ours),
        "rust" => Ok(Side::Rust),
        _ => Err(format!("no side is called {name}")),
    }
}

fn all_rows() -> impl Iterator<Item = Row> {
    PARTS.iter().flat_map(|(_, rows)| rows())
}

/// How often a part's rows are measured one after the other, so that a spell in which the machine is slow spoils no row.
const ROUNDS: usize = 4;

fn measure((name, rows): &Part) {
    let rows = rows();
    let mut best = vec![(f64::INFINITY, f64::INFINITY); rows.len()];
    for _ in 0..ROUNDS {
        for (row, best) in rows.iter().zip(&mut best) {
            let (ours, rust) = row.measure();
            *best = (best.0.min(ours), best.1.min(rust));
        }
    }
    println!("| {name} | ours, ns | Rust, ns | times as quick |");
    println!("|---|---:|---:|---:|");
    for (row, (ours, rust)) in rows.iter().zip(best) {
        println!(
            "| {} | {ours:.1} | {rust:.1} | {:.2} |",
            row.name,
            rust / ours
        );
    }
    println!();
}
