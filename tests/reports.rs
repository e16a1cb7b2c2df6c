//! What the command reports: on the samples and on a few bytes as written by hand, on each datagram of real traffic as a
//! second reader has it. Whole texts are compared, byte for byte.

use command_tests::{bogslipper, file, report, root, sample, with_input};

/// A whole file of hex text.
const HEX: report::Place = report::Place {
    hex: true,
    start: 0,
};

/// A text of tests/expected.
fn expected(name: &str) -> String {
    std::fs::read_to_string(root().join("tests/expected").join(name)).unwrap()
}

/// The report on a sample is the expected one, and the second reader's.
fn reports(command: &str, name: &str, status: i32) {
    let path = sample(&format!("{name}.hex"));
    let words = [command, "--hex", &path];
    let text = expected(&format!("{name}.txt"));
    bogslipper(&words).ended(&words, status, &text, "");
    let bytes = report::hex(&std::fs::read(&path).unwrap()).unwrap();
    assert_eq!(report::on_part(command, &bytes, HEX), (status, text));
}

#[test]
fn the_samples() {
    reports("compound", "compound", 0);
    reports("nack", "nack", 0);
    reports("twcc", "twcc", 0);
}

#[test]
fn a_cut_datagram_is_refused_and_walked_as_far_as_it_goes() {
    reports("compound", "cut", 1);
}

#[test]
fn padding_that_is_no_multiple_of_four_is_refused_and_its_block_read_alone() {
    reports("compound", "padded", 1);
}

#[test]
fn options_stand_anywhere() {
    let path = sample("twcc.hex");
    for words in [["--hex", "twcc", &path], ["twcc", &path, "--hex"]] {
        bogslipper(&words).ended(&words, 0, &expected("twcc.txt"), "");
    }
}

const HEADING: &str = " offset  type  name   count  length    body  padding  holds";

/// The command's whole report on these bytes.
fn says(command: &str, bytes: &[u8], status: i32, lines: &[&str]) {
    let words = [command, "-"];
    let text: String = lines.iter().map(|line| format!("{line}\n")).collect();
    with_input(&words, bytes).ended(&words, status, &text, "");
    assert_eq!(report::on(command, bytes), (status, text));
}

#[test]
fn no_bytes() {
    says(
        "compound",
        &[],
        1,
        &[
            "first pass: refused 1: bytes too short: 4 expected, 0 present",
            HEADING,
        ],
    );
    says(
        "nack",
        &[],
        0,
        &["bytes 0, entries 0, ignored at the end 0", " entry  number"],
    );
    says(
        "twcc",
        &[],
        1,
        &["refused 1: bytes too short: 8 expected, 0 present"],
    );
}

#[test]
fn a_later_version_is_refused_by_both() {
    says(
        "compound",
        &[0x80, 0xcb, 0, 0, 0x40, 0xcb, 0, 0],
        1,
        &[
            "first pass: refused 2: version 1 where 2 is expected",
            HEADING,
            "      0   203  BYE        0       4       0        -  -",
            "walk at 4: refused 2: version 1 where 2 is expected",
        ],
    );
}

#[test]
fn the_first_version_is_refused_by_both() {
    says(
        "compound",
        &[0xff, 0xcb, 0, 0],
        1,
        &[
            "first pass: refused 2: version 3 where 2 is expected",
            HEADING,
            "walk at 0: refused 2: version 3 where 2 is expected",
        ],
    );
}

#[test]
fn padding_before_the_last_packet_is_refused() {
    says(
        "compound",
        &[0xa0, 0xcb, 0, 0, 0x80, 0xcd, 0, 0],
        1,
        &[
            "first pass: refused 5: the packet at 0 has padding and is not the last",
            HEADING,
            "walk at 0: refused 5: type 203, count 0, length 4, padding count 0",
        ],
    );
}

/// Where its packet is not the last, nothing is said of a block.
#[test]
fn a_padded_block_before_the_last_packet_is_not_read_alone() {
    let mut bytes = vec![0xaf, 0xcd, 0, 5];
    bytes.resize(23, 0);
    bytes.extend([2, 0x80, 0xcb, 0, 0]);
    says(
        "compound",
        &bytes,
        1,
        &[
            "first pass: refused 5: the packet at 0 has padding and is not the last",
            HEADING,
            "walk at 0: refused 5: type 205, count 15, length 24, padding count 2, which is not a multiple of 4",
        ],
    );
}

#[test]
fn padding_comes_before_a_later_version() {
    says(
        "compound",
        &[0xa0, 0xcb, 0, 0, 0x40, 0xcb, 0, 0],
        1,
        &[
            "first pass: refused 5: the packet at 0 has padding and is not the last",
            HEADING,
            "walk at 0: refused 5: type 203, count 0, length 4, padding count 0",
        ],
    );
}

const GOODBYE: &str = "      0   203  BYE        0       4       0        -  -";

/// A goodbye, then a feedback packet of 20 bytes and format 1 with this last byte.
fn padded_nack(count: u8) -> Vec<u8> {
    let mut bytes = vec![0x80, 0xcb, 0, 0, 0xa1, 0xcd, 0, 4];
    bytes.resize(23, 0);
    bytes.push(count);
    bytes
}

#[test]
fn padding_counts_that_do_not_fit_are_refused() {
    const NONE: &str = "padding count 0";
    const ONE: &str = "padding count 1, which is not a multiple of 4";
    const SEVEN: &str = "padding count 7, which is not a multiple of 4";
    const NINE: &str = "padding count 9, which is not a multiple of 4";
    const SEVENTEEN: &str = "padding count 17, which is not a multiple of 4";
    const TWENTY: &str = "padding count 20, which is above its length less 4";
    let refusals = [
        (0, NONE, None),
        (1, ONE, Some("nack --skip 16 --take 7")),
        (7, SEVEN, Some("nack --skip 16 --take 1")),
        (9, NINE, None),
        (17, SEVENTEEN, None),
        (20, TWENTY, None),
    ];
    for (count, wrong, alone) in refusals {
        let mut lines = vec![format!(
            "first pass: refused 5: the packet at 4 has {wrong}"
        )];
        lines.extend(alone.map(|words| format!("its block alone: bogslipper {words} FILE")));
        lines.push(HEADING.to_string());
        lines.push(GOODBYE.to_string());
        lines.push(format!(
            "walk at 4: refused 5: type 205, count 1, length 20, {wrong}"
        ));
        let lines: Vec<&str> = lines.iter().map(String::as_str).collect();
        says("compound", &padded_nack(count), 1, &lines);
    }
}

#[test]
fn padding_is_no_part_of_the_body() {
    for (count, body) in [(4, 12), (8, 8), (12, 4), (16, 0)] {
        let row = format!("      4   205  RTPFB      1      20{body:>8}{count:>9}  nack");
        says(
            "compound",
            &padded_nack(count),
            0,
            &["first pass: accepted, 24 bytes", HEADING, GOODBYE, &row],
        );
    }
}

/// Padding that fits is shown where the packet is not the last, and the walk goes on.
#[test]
fn padding_that_fits_before_the_last_packet_is_walked() {
    says(
        "compound",
        &[0xa0, 0xcb, 0, 1, 0, 0, 0, 4, 0x80, 0xcb, 0, 0],
        1,
        &[
            "first pass: refused 5: the packet at 0 has padding and is not the last",
            HEADING,
            "      0   203  BYE        0       8       0        4  -",
            "      8   203  BYE        0       4       0        -  -",
        ],
    );
}

#[test]
fn a_short_block_is_refused() {
    says(
        "twcc",
        &[0; 7],
        1,
        &["refused 1: bytes too short: 8 expected, 7 present"],
    );
}

#[test]
fn a_block_of_every_status() {
    says(
        "twcc",
        &[
            0xff, 0xff, 0, 6, 0, 0, 0, 9, 0xd8, 0xc9, 7, 0xff, 0xfe, 1, 2,
        ],
        0,
        &[
            "base 65535, statuses 6, listed 6, feedback 9, time 0 (0 ms)",
            " number  status         delta         ticks    milliseconds",
            "  65535  received           7             7            1.75",
            "      0  received          -2             5            1.25",
            "      1  not-received       -             -               -",
            "      2  reserved           -             -               -",
            "      3  not-received       -             -               -",
            "      4  received         258      unplaced               -",
        ],
    );
    says(
        "twcc",
        &[0, 5, 0, 3, 0, 0, 1, 0, 0xe9, 0, 0x7f],
        0,
        &[
            "base 5, statuses 3, listed 3, feedback 0, time 1 (64 ms)",
            " number  status         delta         ticks    milliseconds",
            "      5  truncated          -             -               -",
            "      6  truncated          -             -               -",
            "      7  truncated          -             -               -",
        ],
    );
}

#[test]
fn arrivals_before_zero() {
    says(
        "twcc",
        &[0, 1, 0, 3, 0, 0, 0, 0, 0xe9, 0, 0xff, 0xfe, 0xff, 0xfd, 5],
        0,
        &[
            "base 1, statuses 3, listed 3, feedback 0, time 0 (0 ms)",
            " number  status         delta         ticks    milliseconds",
            "      1  received          -2            -2           -0.50",
            "      2  received          -3            -5           -1.25",
            "      3  received           5             0            0.00",
        ],
    );
}

#[test]
fn raw_bytes_are_the_same_as_their_hex() {
    let text = "bytes 5, entries 1, ignored at the end 1\n entry  number\n     0   65535\n     0       0\n";
    let words = ["nack", "-"];
    with_input(&words, &[0xff, 0xff, 0, 1, 9]).ended(&words, 0, text, "");
    let words = ["nack", "--hex", "-"];
    let hex = b"FF ff\t00 # the mask\r\n0 1\n09\n";
    with_input(&words, hex).ended(&words, 0, text, "");
}

#[test]
fn skip_and_take_leave_a_part() {
    let path = sample("padded.hex");
    let bytes = report::hex(&std::fs::read(&path).unwrap()).unwrap();
    let words = ["twcc", "--hex", "--skip", "12", "--take", "18", &path];
    let (status, text) = report::on("twcc", &bytes[12..30]);
    bogslipper(&words).ended(&words, status, &text, "");
    let words = ["nack", "--hex", "--skip", "9999999", &path];
    let text = "bytes 0, entries 0, ignored at the end 0\n entry  number\n";
    bogslipper(&words).ended(&words, 0, text, "");
}

/// The words that a report gives for a block read that block, from the same file, wherever in it the report started.
#[test]
fn the_words_for_a_block_read_it() {
    let path = sample("padded.hex");
    let bytes = report::hex(&std::fs::read(&path).unwrap()).unwrap();
    let (status, text) = report::on("twcc", &bytes[12..30]);
    for start in [0, 42] {
        let mut capture = vec![0x5A; start];
        capture.extend(&bytes);
        let path = file(&format!("padded-behind-{start}"), &capture);
        let skip = start.to_string();
        let words = ["compound", "--skip", &skip, &path];
        let place = report::Place { hex: false, start };
        let (refused, report) = report::on_part("compound", &bytes, place);
        bogslipper(&words).ended(&words, refused, &report, "");
        let given = report.lines().nth(1).unwrap();
        let given = given.strip_prefix("its block alone: bogslipper ").unwrap();
        let words: Vec<&str> = given.split(' ').collect();
        let words: Vec<&str> = words
            .iter()
            .map(|word| if *word == "FILE" { &path } else { *word })
            .collect();
        bogslipper(&words).ended(&words, status, &text, "");
        std::fs::remove_file(&path).unwrap();
    }
}

/// Every datagram's packets lie end to end, and every block in it is read to its last entry. The first pass and the walk accept all of
/// them but those that a sender padded by 1 to 3 bytes, whose block the words read that the report gives.
#[test]
fn the_traffic() {
    let (mut datagrams, mut blocks, mut refused) = (0, 0, 0);
    for entry in std::fs::read_dir(root().join("samples/traffic")).unwrap() {
        for line in std::fs::read_to_string(entry.unwrap().path())
            .unwrap()
            .lines()
        {
            let bytes = report::hex(line.as_bytes()).unwrap();
            let words = ["compound", "--hex", "-"];
            let (status, text) = report::on_part("compound", &bytes, HEX);
            with_input(&words, line.as_bytes()).ended(&words, status, &text, "");
            let mut rows: Vec<&str> = text.lines().collect();
            if status == 1 {
                let count = bytes[bytes.len() - 1];
                assert!(matches!(count, 1..=3), "{line}");
                let wrong = format!("padding count {count}, which is not a multiple of 4");
                assert!(rows[0].ends_with(&wrong), "{line}");
                let stopped = rows.pop().unwrap();
                assert!(stopped.starts_with("walk at "), "{line}");
                assert!(stopped.ends_with(&wrong), "{line}");
                let alone = "its block alone: bogslipper twcc --hex --skip ";
                let place = rows.remove(1).strip_prefix(alone).unwrap();
                let place = place.strip_suffix(" FILE").unwrap();
                let (skip, take) = place.split_once(" --take ").unwrap();
                let (skip, take) = (skip.parse().unwrap(), take.parse().unwrap());
                block(line, &bytes, "twcc", skip, take);
                refused += 1;
            }
            assert_eq!(rows[1], HEADING);
            for row in &rows[2..] {
                let cells: Vec<&str> = row.split_whitespace().collect();
                let number = |place: usize| cells[place].parse().unwrap_or(0);
                let (offset, length, body, padding) = (number(0), number(4), number(5), number(6));
                assert_eq!(4 + body + padding, length, "{line}");
                if cells[7] != "-" {
                    block(line, &bytes, cells[7], offset + 12, body - 8);
                    blocks += 1;
                }
            }
            datagrams += 1;
        }
    }
    assert_eq!((datagrams, blocks, refused), (60, 27, 4));
}

/// Reads a block of a datagram to its last entry.
fn block(line: &str, bytes: &[u8], holds: &str, skip: usize, take: usize) {
    let (_, text) = report::on(holds, &bytes[skip..skip + take]);
    let (skip, take) = (skip.to_string(), take.to_string());
    let words = [holds, "--hex", "--skip", &skip, "--take", &take, "-"];
    with_input(&words, line.as_bytes()).ended(&words, 0, &text, "");
    assert!(!text.contains("truncated") && !text.contains("reserved"));
    if holds == "twcc" {
        let header: Vec<&str> = text.split([' ', ',']).collect();
        assert_eq!(header[4], header[7], "all statuses are listed: {line}");
    }
}
