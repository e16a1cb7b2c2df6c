//! What the command says where it cannot report: words that it does not know, and files that it cannot read. Whole texts are
//! compared, byte for byte.

use command_tests::{bogslipper, file, report, root, with_input};

const REPORTS: [&str; 3] = ["compound", "nack", "twcc"];

const HINT: &str = "'bogslipper help' lists commands and options.\n";

/// The command has status 2, writes no report, and says this alone.
fn trouble(words: &[&str], message: &str) {
    bogslipper(words).ended(words, 2, "", &format!("bogslipper: {message}\n"));
}

/// The same, and where to look for help.
fn not_known(words: &[&str], message: &str) {
    bogslipper(words).ended(words, 2, "", &format!("bogslipper: {message}\n{HINT}"));
}

#[test]
fn help() {
    let page = std::fs::read_to_string(root().join("tests/expected/help.txt")).unwrap();
    for words in [&["help"][..], &["--help"], &["-h"], &["twcc", "--help"]] {
        bogslipper(words).ended(words, 0, &page, "");
    }
    bogslipper(&[]).ended(&[], 2, "", &page);
}

#[test]
fn words_that_are_not_known() {
    not_known(&["report", "x"], "no such command: report");
    not_known(&["", "x"], "no such command: ");
    not_known(&["twcc", "--hexx", "x"], "no such option: --hexx");
    not_known(&["-x"], "no such option: -x");
    for report in REPORTS {
        not_known(&[report], "no FILE");
        not_known(&[report, "a", "b"], "one word too many: b");
        for (option, number) in [("--take", "-1"), ("--skip", "12345678"), ("--skip", "0x10")] {
            trouble(
                &[report, "a", option, number],
                &format!(
                    "--skip and --take want a number of bytes, at most 9999999, and not: {number}"
                ),
            );
        }
        trouble(
            &[report, "a", "--skip"],
            "--skip and --take want a number of bytes, at most 9999999, and not: ",
        );
    }
    not_known(&["twcc", &"x".repeat(5000)], "an argument above 4096 bytes");
}

#[test]
fn files_that_cannot_be_read() {
    for report in REPORTS {
        for (path, why) in [
            ("no/such/file", "No such file or directory"),
            (".", "Is a directory"),
            ("", "No such file or directory"),
            ("/dev/zero", "larger than 262144 bytes"),
        ] {
            trouble(&[report, path], &format!("{path}: {why}"));
            trouble(&[report, "--hex", path], &format!("{path}: {why}"));
        }
    }
}

#[test]
fn files_of_the_largest_size_and_one_more() {
    let (most, more) = (file("most", &[0; 262144]), file("more", &[0; 262145]));
    for command in REPORTS {
        let (status, text) = report::on(command, &[0; 262144]);
        let words = [command, &most];
        bogslipper(&words).ended(&words, status, &text, "");
        trouble(
            &[command, &more],
            &format!("{more}: larger than 262144 bytes"),
        );
    }
}

#[test]
fn text_that_is_no_hex() {
    for (text, why) in [
        (&b"12 3"[..], "an odd number of hex digits"),
        (b"12\n34 # xyz\n0x56", "line 3: 'x' is no hex digit"),
        (b"12\x00", "line 1: byte 0 is no hex digit"),
        (b"\xc3\xa9", "line 1: byte 195 is no hex digit"),
    ] {
        assert_eq!(report::hex(text), Err(why.to_string()));
        for report in REPORTS {
            let words = [report, "--hex", "-"];
            let message = format!("bogslipper: -: {why}\n");
            with_input(&words, text).ended(&words, 2, "", &message);
        }
    }
}
