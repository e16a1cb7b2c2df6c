//! What the command has to answer on any bytes, written from docs/RULES.md alone: a second reader, which shares no line with
//! the library or the command.

/// A report, and the exit status: 0, or 1 where something was refused.
pub type Report = (i32, String);

/// Where the bytes stand: whether their file is hex text, and how many bytes of it come before them.
#[derive(Clone, Copy, Default)]
pub struct Place {
    pub hex: bool,
    pub start: usize,
}

/// The report of a command on a whole file of bytes.
pub fn on(command: &str, bytes: &[u8]) -> Report {
    on_part(command, bytes, Place::default())
}

/// The report of a command on bytes that stand somewhere in a file.
pub fn on_part(command: &str, bytes: &[u8], place: Place) -> Report {
    match command {
        "compound" => compound(bytes, place),
        "nack" => nack(bytes),
        _ => twcc(bytes),
    }
}

fn number_at(bytes: &[u8], at: usize) -> u16 {
    u16::from_be_bytes([bytes[at], bytes[at + 1]])
}

fn too_short(expected: usize, actual: usize) -> String {
    format!("refused 1: bytes too short: {expected} expected, {actual} present\n")
}

fn version(first: u8) -> String {
    let version = first >> 6;
    format!("refused 2: version {version} where 2 is expected\n")
}

/// The end of the packet at a place, or why it has none.
fn end_of(bytes: &[u8], at: usize) -> Result<usize, String> {
    let size = bytes.len();
    if size - at < 4 {
        return Err(too_short(at + 4, size));
    }
    let end = at + 4 * (usize::from(number_at(bytes, at + 2)) + 1);
    match end <= size {
        true => Ok(end),
        false => Err(too_short(end, size)),
    }
}

fn first_pass(bytes: &[u8], place: Place) -> Result<(), String> {
    if bytes.is_empty() {
        return Err(too_short(4, 0));
    }
    let mut at = 0;
    while at < bytes.len() {
        if at + 4 <= bytes.len() && bytes[at] >> 6 != 2 {
            return Err(version(bytes[at]));
        }
        let end = end_of(bytes, at)?;
        if bytes[at] & 0x20 != 0 {
            let wrong = match misfit(&bytes[at..end]) {
                _ if end < bytes.len() => "has padding and is not the last".to_string(),
                Some(wrong) => format!("has {wrong}"),
                None => return Ok(()),
            };
            let alone = block_alone(bytes, at, end, place);
            return Err(format!("refused 5: the packet at {at} {wrong}\n{alone}"));
        }
        at = end;
    }
    Ok(())
}

/// What is wrong with the padding count of a padded packet.
fn misfit(packet: &[u8]) -> Option<String> {
    match packet[packet.len() - 1] {
        0 => Some("padding count 0".to_string()),
        count if count % 4 != 0 => Some(format!(
            "padding count {count}, which is not a multiple of 4"
        )),
        count if usize::from(count) > packet.len() - 4 => Some(format!(
            "padding count {count}, which is above its length less 4"
        )),
        _ => None,
    }
}

/// The end of the packet that the walk finds at a place, or why it finds none.
fn found_at(bytes: &[u8], at: usize) -> Result<usize, String> {
    let end = end_of(bytes, at)?;
    if bytes[at] >> 6 != 2 {
        return Err(version(bytes[at]));
    }
    let padded = bytes[at] & 0x20 != 0;
    match misfit(&bytes[at..end]) {
        Some(wrong) if padded => {
            let (kind, count, length) = (bytes[at + 1], bytes[at] & 0x1f, end - at);
            Err(format!(
                "refused 5: type {kind}, count {count}, length {length}, {wrong}\n"
            ))
        }
        _ => Ok(end),
    }
}

/// How the block of a last packet whose padding count is no multiple of four is read, where there is one.
fn block_alone(bytes: &[u8], at: usize, end: usize, place: Place) -> String {
    let padding = usize::from(bytes[end - 1]);
    let holds = holds(&bytes[at..end]);
    if end < bytes.len() || padding % 4 == 0 || holds == "-" || end < at + 12 + padding {
        return String::new();
    }
    let hex = if place.hex { " --hex" } else { "" };
    let (skip, take) = (place.start + at + 12, end - at - 12 - padding);
    format!("its block alone: bogslipper {holds}{hex} --skip {skip} --take {take} FILE\n")
}

fn holds(packet: &[u8]) -> &'static str {
    match (packet[1], packet[0] & 0x1f) {
        (205, 1) => "nack",
        (205, 15) => "twcc",
        _ => "-",
    }
}

fn compound(bytes: &[u8], place: Place) -> Report {
    let (mut status, mut text) = match first_pass(bytes, place) {
        Ok(()) => (0, format!("first pass: accepted, {} bytes\n", bytes.len())),
        Err(refused) => (1, format!("first pass: {refused}")),
    };
    text += " offset  type  name   count  length    body  padding  holds\n";
    let mut at = 0;
    while at < bytes.len() {
        match found_at(bytes, at) {
            Ok(end) => {
                text += &packet(&bytes[at..end], at);
                at = end;
            }
            Err(refused) => {
                text += &format!("walk at {at}: {refused}");
                status = 1;
                break;
            }
        }
    }
    (status, text)
}

fn packet(packet: &[u8], at: usize) -> String {
    let (count, kind) = (packet[0] & 0x1f, packet[1]);
    let name = match kind {
        200 => "SR",
        201 => "RR",
        202 => "SDES",
        203 => "BYE",
        204 => "APP",
        205 => "RTPFB",
        206 => "PSFB",
        207 => "XR",
        _ => "-",
    };
    let (length, holds) = (packet.len(), holds(packet));
    let (body, padding) = match packet[0] & 0x20 {
        0 => (length - 4, "-".to_string()),
        _ => {
            let count = packet[length - 1];
            (length - 4 - usize::from(count), count.to_string())
        }
    };
    format!("{at:>7}{kind:>6}  {name:<5}{count:>7}{length:>8}{body:>8}{padding:>9}  {holds}\n")
}

fn nack(bytes: &[u8]) -> Report {
    let (size, entries, ignored) = (bytes.len(), bytes.len() / 4, bytes.len() % 4);
    let mut text = format!("bytes {size}, entries {entries}, ignored at the end {ignored}\n");
    text += " entry  number\n";
    for (place, entry) in bytes.chunks_exact(4).enumerate() {
        let (first, mask) = (number_at(entry, 0), number_at(entry, 2));
        for above in (0..=16).filter(|above| *above == 0 || mask >> (above - 1) & 1 == 1) {
            let number = first.wrapping_add(above);
            text += &format!("{place:>6}{number:>8}\n");
        }
    }
    (0, text)
}

/// The symbols of a chunk: a run, fourteen of one bit or seven of two.
fn symbols(chunk: u16) -> Vec<u16> {
    match chunk >> 14 {
        2 => (0..14).rev().map(|bit| chunk >> bit & 1).collect(),
        3 => (0..7).rev().map(|pair| chunk >> (2 * pair) & 3).collect(),
        _ => vec![chunk >> 13; usize::from(chunk & 0x1fff)],
    }
}

fn twcc(block: &[u8]) -> Report {
    if block.len() < 8 {
        return (1, too_short(8, block.len()));
    }
    let (base, count) = (number_at(block, 0), number_at(block, 2));
    let time = i64::from(u32::from_be_bytes([0, block[4], block[5], block[6]]));
    let (mut listed, mut at) = (vec![], 8);
    while listed.len() < usize::from(count) && at + 2 <= block.len() {
        listed.extend(symbols(number_at(block, at)));
        listed.truncate(count.into());
        at += 2;
    }
    let mut deltas = block[at..].iter().copied();
    let mut rows = String::new();
    let mut last = Some(256 * time);
    for (place, symbol) in listed.iter().enumerate() {
        let number = base.wrapping_add(place as u16);
        let (status, delta) = match symbol {
            0 => ("not-received", None),
            1 => match deltas.next() {
                Some(small) => ("received", Some(i64::from(small))),
                None => ("truncated", None),
            },
            2 => match (deltas.next(), deltas.next()) {
                (Some(high), Some(low)) => {
                    ("received", Some(i16::from_be_bytes([high, low]).into()))
                }
                _ => ("truncated", None),
            },
            _ => ("reserved", None),
        };
        // a delta counts from the arrival before it, which an entry that can't be read takes away
        last = match status {
            "received" => last.zip(delta).map(|(last, delta)| last + delta),
            "not-received" => last,
            _ => None,
        };
        let (ticks, milliseconds) = match (delta, last) {
            (None, _) => ("-".into(), "-".into()),
            (Some(_), None) => ("unplaced".into(), "-".into()),
            (Some(_), Some(ticks)) => (ticks.to_string(), format!("{:.2}", ticks as f64 / 4.0)),
        };
        let delta = delta.map_or("-".into(), |delta| delta.to_string());
        rows += &format!("{number:>7}  {status:<12}{delta:>8}{ticks:>14}{milliseconds:>16}\n");
    }
    let (listed, feedback, start) = (listed.len(), block[7], 64 * time);
    let text = format!(
        "base {base}, statuses {count}, listed {listed}, feedback {feedback}, time {time} ({start} ms)\n \
         number  status         delta         ticks    milliseconds\n{rows}"
    );
    (0, text)
}

/// The bytes that hex text stands for, or what is wrong with it.
pub fn hex(text: &[u8]) -> Result<Vec<u8>, String> {
    let mut digits = vec![];
    for (line, number) in text.split(|byte| *byte == b'\n').zip(1..) {
        let plain = line.split(|byte| *byte == b'#').next().unwrap();
        for &byte in plain {
            match (char::from(byte).to_digit(16), byte) {
                (Some(digit), _) => digits.push(digit as u8),
                (None, b' ' | b'\t' | b'\r') => (),
                (None, b'!'..=b'~') => {
                    let sign = char::from(byte);
                    return Err(format!("line {number}: '{sign}' is no hex digit"));
                }
                _ => return Err(format!("line {number}: byte {byte} is no hex digit")),
            }
        }
    }
    if digits.len() % 2 == 1 {
        return Err("an odd number of hex digits".into());
    }
    Ok(digits
        .chunks(2)
        .map(|pair| 16 * pair[0] + pair[1])
        .collect())
}
