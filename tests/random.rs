//! Every report on random files: byte for byte that of a second reader, in time.

use command_tests::{bogslipper, file, report, with_input};

/// The xorshift generator of Marsaglia, with 64 bits.
struct Random(u64);

impl Random {
    fn next(&mut self) -> u64 {
        self.0 ^= self.0 << 13;
        self.0 ^= self.0 >> 7;
        self.0 ^= self.0 << 17;
        self.0
    }

    fn below(&mut self, n: u64) -> u64 {
        (self.next() >> 11) % n
    }

    fn bytes(&mut self, n: usize) -> Vec<u8> {
        (0..n).map(|_| (self.next() >> 32) as u8).collect()
    }
}

/// Sizes around the bounds first, then any up to 70,000.
fn size(random: &mut Random, turn: usize) -> usize {
    const FIRST: [usize; 16] = [
        0, 1, 2, 3, 4, 5, 7, 8, 9, 10, 11, 12, 65535, 65536, 69999, 70000,
    ];
    match FIRST.get(turn) {
        Some(&size) => size,
        None if turn % 2 == 0 => random.below(200) as usize,
        None => random.below(70001) as usize,
    }
}

/// Random bytes; every second file opens like a packet of its own length, where it has room for that.
fn contents(random: &mut Random, turn: usize) -> Vec<u8> {
    let size = size(random, turn);
    let mut bytes = random.bytes(size);
    if turn % 2 == 1 && 4 <= size {
        bytes[0] = 0x80 | bytes[0] & 0x1f;
        bytes[1] = 200 + bytes[1] % 8;
        let words = (random.below(size as u64 / 4) as u16).to_be_bytes();
        bytes[2..4].copy_from_slice(&words);
    }
    bytes
}

fn two_hundred(command: &str, seed: u64) {
    let mut random = Random(seed);
    for turn in 0..200 {
        let bytes = contents(&mut random, turn);
        let path = file(&format!("random-{command}-{turn}"), &bytes);
        let words = [command, &path];
        let (status, text) = report::on(command, &bytes);
        bogslipper(&words).ended(&words, status, &text, "");
        std::fs::remove_file(path).unwrap();
    }
}

#[test]
fn compounds() {
    two_hundred("compound", 1);
}

/// One to four packets, some padded and some of another version, whose padding counts fit or nearly do.
fn padded(random: &mut Random) -> Vec<u8> {
    let mut bytes = vec![];
    for _ in 0..1 + random.below(4) {
        let version = if random.below(8) == 0 { 1 } else { 2 };
        let padding = u8::from(random.below(3) == 0);
        let format = [0, 1, 15][random.below(3) as usize];
        let kind = [203, 205, 205, 206][random.below(4) as usize];
        let words = random.below(9) as u8;
        bytes.extend([version << 6 | padding << 5 | format, kind, 0, words]);
        bytes.extend(random.bytes(4 * usize::from(words)));
        if words > 0 {
            *bytes.last_mut().unwrap() = random.below(4 * u64::from(words) + 6) as u8;
        }
    }
    bytes
}

#[test]
fn padded_compounds() {
    let mut random = Random(5);
    for _ in 0..600 {
        let bytes = padded(&mut random);
        let words = ["compound", "-"];
        let (status, text) = report::on("compound", &bytes);
        with_input(&words, &bytes).ended(&words, status, &text, "");
    }
}

#[test]
fn nacks() {
    two_hundred("nack", 2);
}

#[test]
fn twcc_blocks() {
    two_hundred("twcc", 3);
}

/// Random bytes as hex text: hardly ever hex, and then said so.
#[test]
fn as_hex_text() {
    let mut random = Random(4);
    for turn in 0..100 {
        let bytes = contents(&mut random, turn);
        let words = ["twcc", "--hex", "-"];
        let ran = with_input(&words, &bytes);
        match report::hex(&bytes) {
            Ok(block) => {
                let (status, text) = report::on("twcc", &block);
                ran.ended(&words, status, &text, "");
            }
            Err(why) => ran.ended(&words, 2, "", &format!("bogslipper: -: {why}\n")),
        }
    }
}
