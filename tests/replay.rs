//! Runs the program `replay` on its recording, and on recordings that are damaged: it says what is wrong, and on which line.

use std::fs;
use std::path::{Path, PathBuf};
use std::process::Command;

use command_tests::root;

/// The recording's lines; `at` counts from 0, the program's own numbers from 1.
fn recording() -> Vec<String> {
    let text = fs::read_to_string(root().join("crates/replay/data/answers")).unwrap();
    text.lines().map(String::from).collect()
}

/// The place of the first line of a call with a mark.
fn first(lines: &[String], call: &str, mark: char) -> usize {
    let opening = format!("{call:<20}{mark}");
    lines
        .iter()
        .position(|line| line.starts_with(&opening))
        .unwrap_or_else(|| panic!("no line opens with {opening}"))
}

/// A line under another mark.
fn marked(line: &str, mark: char) -> String {
    format!("{}{mark}{}", &line[..20], &line[21..])
}

/// The program, built where it is out of date.
fn program() -> PathBuf {
    let built = Command::new(root().join(".ci/built")).arg("replay").status();
    assert!(built.expect(".ci/built starts").success());
    root().join("target/bin/replay")
}

/// What the program prints on a text.
fn replay(name: &str, text: &str) -> String {
    let path = Path::new(env!("CARGO_TARGET_TMPDIR")).join(name);
    fs::write(&path, text).unwrap();
    let output = Command::new(program()).arg(path).output();
    let output = output.expect("target/bin/replay starts");
    assert!(output.status.success(), "{name}: {}", output.status);
    String::from_utf8(output.stdout).unwrap()
}

/// What it says beside the table.
fn complaints(name: &str, text: &str) -> Vec<String> {
    let printed = replay(name, text);
    let lines = printed.lines().map(String::from);
    lines.filter(|line| line.starts_with("line ")).collect()
}

/// The one line at a place is replaced, and the program says this of it.
fn says(name: &str, at: usize, line: String, what: &str) {
    let mut lines = recording();
    let call = line.get(..20).unwrap_or("").to_string();
    lines[at] = line;
    let wanted = format!("line {}: {call}{what}", at + 1);
    assert_eq!(
        complaints(name, &(lines.join("\n") + "\n")),
        [wanted],
        "{name}"
    );
}

#[test]
fn the_recording_is_met() {
    let text = recording().join("\n") + "\n";
    let expected = fs::read_to_string(root().join("crates/replay/stdout")).unwrap();
    assert_eq!(replay("whole", &text), expected);
}

#[test]
fn a_wrong_line_that_is_not_marked_disagrees() {
    let lines = recording();
    for (mark, what) in [
        ('n', "says another number"),
        ('v', "says another value"),
        ('m', "leaves other memory"),
    ] {
        let at = first(&lines, "twcc_read", mark);
        says(
            &format!("unmarked_{mark}"),
            at,
            marked(&lines[at], '='),
            what,
        );
    }
}

#[test]
fn a_right_line_that_is_marked_is_not_found_out() {
    let lines = recording();
    let at = first(&lines, "nack_read", '=');
    for mark in ['n', 'v', 'm', 'x'] {
        let what = "is wrong on purpose, and not found out";
        says(
            &format!("marked_{mark}"),
            at,
            marked(&lines[at], mark),
            what,
        );
    }
}

#[test]
fn a_line_that_cannot_be_read_is_named() {
    let lines = recording();
    let at = first(&lines, "check_packet", '=');
    let line = &lines[at];
    for (name, damaged) in [
        ("no_digit", line.replacen(" 1", " g", 1)),
        ("no_such_part", line.replacen(" 1", " 3", 1)),
        (
            "no_such_call",
            line.replacen("check_packet", "check_pocket", 1),
        ),
        ("more_behind_it", format!("{line} 00")),
        ("cut", line[..line.len() - 2].to_string()),
        ("no_outcome", line[..line.find(" 9").unwrap()].to_string()),
        (
            "nothing_to_repeat",
            line.replacen("= ", "= *000001000001 ", 1),
        ),
        ("no_room", line.replacen("= ", "= 00 *ffffff000001 ", 1)),
        ("short", "check".to_string()),
        ("empty", String::new()),
    ] {
        says(name, at, damaged, "can't be read");
    }
}

#[test]
fn a_recording_has_as_many_lines_as_it_says() {
    let lines = recording();
    let (count, text) = (lines.len(), lines.join("\n"));
    let last = &lines[count - 1];
    let short = format!("line {}: the recording is cut short", count - 1);
    assert_eq!(
        complaints("a_line_less", &(lines[..count - 1].join("\n") + "\n")),
        [short]
    );
    let short = format!("line {count}: the recording is cut short");
    assert_eq!(complaints("no_newline", &text), [short]);
    let long = format!("line {count}: the recording is too long");
    assert_eq!(
        complaints("a_line_more", &format!("{text}\n{last}\n")),
        [long]
    );
    assert_eq!(
        complaints("nothing", ""),
        ["line 1: the recording is cut short"]
    );
    assert_eq!(
        replay("twice", &text.repeat(2)),
        "there is no room for the recording\n"
    );
}
