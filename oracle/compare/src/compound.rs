//! Compounds, packets of any type, the walk from any offset and the plain packet writer.

use ours::{Expect, Random, Said};
use rtcp_types::prelude::*;
use rtcp_types::{Compound, Packet, RtcpWriteError, Unknown, UnknownBuilder};

use crate::case::{any_bytes, read_only, refused_reading, Book, Effort, Expected, Lent};
use crate::record::{Case, Memory};
use crate::traffic;

pub fn compare(effort: &Effort) -> Vec<Book> {
    let mut readers = Readers {
        random: effort.random(),
        compound: effort.book("compound_parse"),
        rule: Book::new("the crate's rule"),
        unknown: effort.book("unknown_parse"),
        step: effort.book("walk_step"),
        walk: Book::new("walk, whole"),
    };
    read_fixed_compounds(&mut readers);
    read_short_inputs(&mut readers);
    read_damaged_compounds(&mut readers);
    read_random_compounds(&mut readers, effort);
    pass_fixed_compounds(&mut readers);
    pass_every_padding(&mut readers);
    pass_pairs(&mut readers);
    step_fixed_packets(&mut readers);
    step_every_padding(&mut readers);
    walk_traffic(&mut readers);
    let Readers {
        compound,
        rule,
        unknown,
        step,
        walk,
        ..
    } = readers;
    vec![compound, rule, unknown, step, walk, compare_write(effort)]
}

/// The calls that read a compound, each with its book.
struct Readers {
    random: Random,
    compound: Book,
    rule: Book,
    unknown: Book,
    step: Book,
    walk: Book,
}

impl Readers {
    /// The first pass, and beside it the crate's as compound/specs/Rust.antt has it.
    fn pass(&mut self, data: &[u8]) {
        let (said, lent) = read_only(&mut self.random, data, ours::compound_parse);
        let theirs = match Compound::parse(data) {
            Ok(_) => Said::answer(&[]),
            Err(error) => refused_reading(error),
        };
        let expected = expected_compound(data, theirs);
        let case = Case::reading(data);
        self.compound.enter(expected, said, &[&lent.kept()], case);
        let rule = first_pass(data, Rule::Crate);
        self.rule.enter(theirs, rule, &[&lent.kept()], case);
    }

    /// All calls on the same data.
    fn read(&mut self, data: &[u8]) {
        self.pass(data);
        let random = &mut self.random;
        let (said, lent) = read_only(random, data, ours::unknown_parse);
        let expected = expected_unknown(data);
        let case = Case::reading(data);
        self.unknown.enter(expected, said, &[&lent.kept()], case);
        self.walk(data);
    }

    /// The walk from 0, where the crate's iterator has an answer for it.
    fn walk(&mut self, data: &[u8]) {
        let Ok(compound) = Compound::parse(data) else {
            return;
        };
        let mut offset = 0;
        let mut ended = false;
        for packet in compound {
            let expected = match packet {
                Ok(Packet::Unknown(packet)) => expected_record(packet.data(), offset),
                Err(error) if !of_known_type(data, offset) => refused_reading(error).into(),
                _ => return,
            };
            // At padding that we alone refuse the crate goes on, to the end of the data, where ours is over too.
            ended = expected.said.number == 2;
            self.walk_on(data, offset, expected);
            offset += length_at(data, offset);
        }
        if !ended {
            let end = data.len() as u64;
            self.walk_on(data, offset, Said::answer(&[1, end]));
        }
    }

    /// The walk from 0 over any types, to its end.
    fn walk_through(&mut self, data: &[u8]) {
        let mut offset = 0;
        loop {
            let expected = expected_step(data, offset);
            let said = expected.said;
            self.walk_on(data, offset, expected);
            if said.number != 0 || said.values[0] != 0 {
                return;
            }
            offset = said.values[1];
        }
    }

    /// One step of the walk from 0.
    fn walk_on(&mut self, data: &[u8], offset: u64, expected: impl Into<Expected>) {
        let (said, lent) = read_only(&mut self.random, data, |data| ours::walk_step(data, offset));
        let numbers = [offset.into()];
        let case = Case::reading(data).numbers(&numbers);
        self.walk.enter(expected, said, &[&lent.kept()], case);
    }

    /// One step from any offset.
    fn step(&mut self, data: &[u8], offset: u64) {
        let (said, lent) = read_only(&mut self.random, data, |data| ours::walk_step(data, offset));
        let expected = expected_step(data, offset);
        let kind = match expected.said.values {
            [0, _, _, _, _, 0, ..] => "packet",
            [0, ..] => "padded",
            _ => "over",
        };
        let numbers = [offset.into()];
        let case = Case::reading(data).numbers(&numbers).kind(kind);
        self.step.enter(expected, said, &[&lent.kept()], case);
    }

    /// One step from every offset inside, some past the end, and some near the largest.
    fn step_from_everywhere(&mut self, data: &[u8]) {
        let end = data.len() as u64;
        for offset in (0..=end + 5)
            .chain(u64::MAX - 8..=u64::MAX)
            .chain([1 << 63])
        {
            self.step(data, offset);
        }
    }
}

/// The crate reads the types 200 to 207 as packets of their own kinds.
fn of_known_type(data: &[u8], offset: u64) -> bool {
    (200..=207).contains(&data[offset as usize + 1])
}

/// Whose first pass: that of docs/RULES.md, or the crate's, which looks at the first packet's version at every turn and at no
/// padding count.
#[derive(Clone, Copy, PartialEq)]
enum Rule {
    Ours,
    Crate,
}

/// A first pass, line by line.
fn first_pass(data: &[u8], rule: Rule) -> Said {
    let end = data.len();
    if end == 0 {
        return Said::refusal(1, &[4, 0]);
    }
    let mut at = 0;
    while at < end {
        let &[first, _, high, low, ..] = &data[at..] else {
            return Said::refusal(1, &[at as u64 + 4, end as u64]);
        };
        let version = match rule {
            Rule::Ours => first >> 6,
            Rule::Crate => data[0] >> 6,
        };
        if version != 2 {
            return Said::refusal(2, &[version.into()]);
        }
        let length = 4 * (usize::from(u16::from_be_bytes([high, low])) + 1);
        let next = at + length;
        if end < next {
            return Said::refusal(1, &[next as u64, end as u64]);
        }
        let padded = first & 0x20 != 0;
        if padded && (next < end || rule == Rule::Ours && !fits(data[next - 1], length)) {
            return Said::refusal(5, &[]);
        }
        at = next;
    }
    Said::answer(&[])
}

/// Whether the padding count of a padded packet of this length fits.
fn fits(count: u8, length: usize) -> bool {
    count != 0 && count % 4 == 0 && usize::from(count) <= length - 4
}

/// Ours by docs/RULES.md, beside the crate's verdict: whatever the crate refuses has to be refused.
fn expected_compound(data: &[u8], theirs: Said) -> Expected {
    let ours = first_pass(data, Rule::Ours);
    match (theirs.number, ours.number) {
        _ if theirs == ours => ours.into(),
        (_, 0) => theirs.into(),
        (0, 2) => Expected::differing("later version refused", ours),
        (0, _) => Expected::differing("padding count refused", ours),
        _ => Expected::differing("refused by another number", ours),
    }
}

fn expected_unknown(data: &[u8]) -> Said {
    match Unknown::parse(data) {
        Ok(_) => Said::answer(&[]),
        Err(error) => refused_reading(error),
    }
}

/// The length that the packet at an offset says.
fn length_at(data: &[u8], offset: u64) -> u64 {
    let at = offset as usize;
    4 * (u64::from(u16::from_be_bytes([data[at + 2], data[at + 3]])) + 1)
}

/// The walk step of docs/RULES.md, line by line; the packet itself is read as the crate's `Unknown`.
fn expected_step(data: &[u8], offset: u64) -> Expected {
    let end = data.len() as u64;
    if offset >= end {
        return Said::answer(&[1, end]).into();
    }
    if end - offset < 4 {
        return Said::refusal(1, &[offset + 4, end]).into();
    }
    let next = offset + length_at(data, offset);
    if end < next {
        return Said::refusal(1, &[next, end]).into();
    }
    let packet = &data[offset as usize..next as usize];
    match Unknown::parse(packet) {
        Ok(_) => expected_record(packet, offset),
        Err(error) => refused_reading(error).into(),
    }
}

/// The record of a whole packet of version 2, which the crate's `Unknown` accepts whatever its padding count is.
fn expected_record(packet: &[u8], start: u64) -> Expected {
    let length = packet.len() as u64;
    let last = packet[packet.len() - 1];
    let padding = match packet[0] & 0x20 {
        0 => 0,
        _ if fits(last, packet.len()) => last.into(),
        _ => return Expected::differing("padding count refused", Said::refusal(5, &[])),
    };
    let body = length - 4 - padding;
    Said::answer(&[0, start + length, start, length, body, padding]).into()
}

/// The fixed examples, with their own words as the expectation.
fn read_fixed_compounds(readers: &mut Readers) {
    let table: [(&[u8], Said); 6] = [
        (&[], Said::refusal(1, &[4, 0])),
        (
            &[0x80, 0xCB, 0, 0, 0x40, 0xCB, 0, 0],
            Said::refusal(2, &[1]),
        ),
        (&[0xA0, 0xCB, 0, 0, 0x80, 0xCB, 0, 0], Said::refusal(5, &[])),
        (&[0x80, 0xCB, 0, 1], Said::refusal(1, &[8, 4])),
        (&[0x80, 0xCB, 0, 0, 0x80], Said::refusal(1, &[8, 5])),
        (&[0x00, 0xCB, 0, 1], Said::refusal(2, &[0])),
    ];
    for (data, expected) in table {
        let (said, lent) = read_only(&mut readers.random, data, ours::compound_parse);
        let case = Case::reading(data);
        readers
            .compound
            .table(|book| book.enter(expected, said, &[&lent.kept()], case));
        readers.read(data);
        readers.step_from_everywhere(data);
    }
}

/// All headers over the bytes that matter, followed by others, at every length to 12.
fn read_short_inputs(readers: &mut Readers) {
    const FIRST: [u8; 9] = [0x80, 0xA0, 0x9F, 0xBF, 0x00, 0x20, 0x40, 0xC0, 0xFF];
    const KIND: [u8; 8] = [0, 127, 199, 200, 203, 207, 208, 255];
    const WORD: [[u8; 2]; 7] = [[0, 0], [0, 1], [0, 2], [0, 3], [1, 0], [0, 255], [255, 255]];
    for first in FIRST {
        for kind in KIND {
            for word in WORD {
                let random = &mut readers.random;
                let mut data = vec![first, kind, word[0], word[1]];
                for _ in 0..2 {
                    let word = random.pick(&WORD[..3]);
                    data.extend([random.pick(&FIRST), random.pick(&KIND), word[0], word[1]]);
                }
                for length in 0..=data.len() {
                    readers.read(&data[..length]);
                    readers.step_from_everywhere(&data[..length]);
                }
            }
        }
    }
}

/// Versions and padding counts at their turn, with the words of docs/RULES.md as the expectation.
fn pass_fixed_compounds(readers: &mut Readers) {
    let table: [(&[u8], Said); 8] = [
        (
            &[0x80, 0xCB, 0, 0, 0xC0, 0xCB, 0, 9],
            Said::refusal(2, &[3]),
        ),
        (&[0xA0, 0xCB, 0, 0, 0x40, 0xCB, 0, 0], Said::refusal(5, &[])),
        (&[0xA0, 0xCB, 0, 0], Said::refusal(5, &[])),
        (&[0xA0, 0xCB, 0, 1, 0, 0, 0, 0], Said::refusal(5, &[])),
        (&[0xA0, 0xCB, 0, 1, 0, 0, 0, 2], Said::refusal(5, &[])),
        (&[0xA0, 0xCB, 0, 1, 0, 0, 0, 4], Said::answer(&[])),
        (&[0xA0, 0xCB, 0, 1, 0, 0, 0, 5], Said::refusal(5, &[])),
        (&[0xA0, 0xCB, 0, 1, 0, 0, 0, 8], Said::refusal(5, &[])),
    ];
    for (data, expected) in table {
        let (said, lent) = read_only(&mut readers.random, data, ours::compound_parse);
        let case = Case::reading(data);
        readers
            .compound
            .table(|book| book.enter(expected, said, &[&lent.kept()], case));
        readers.pass(data);
    }
}

/// One packet with every first and every last byte, at the lengths 4 to 24: those that are no whole words have bytes behind it.
fn pass_every_padding(readers: &mut Readers) {
    for length in 4..=24 {
        let words = (length / 4 - 1) as u16;
        let mut data = readers.random.bytes(length);
        data[2..4].copy_from_slice(&words.to_be_bytes());
        for first in 0..=255 {
            for last in 0..=255 {
                data[0] = first;
                data[length - 1] = last;
                readers.pass(&data);
            }
        }
    }
}

/// Two packets with every version and padding bit, and every last byte of the second.
fn pass_pairs(readers: &mut Readers) {
    for (one, other) in (0..3).flat_map(|one| (0..6).map(move |other| (one, other))) {
        for bits in 0..64 {
            let random = &mut readers.random;
            let mut data = vec![];
            for (top, words) in [(bits >> 3, one), (bits & 7, other)] {
                let first = top << 5 | random.byte() & 0x1F;
                let kind = random.byte();
                push_packet(&mut data, random, first, kind, words);
            }
            let end = data.len();
            for last in 0..=255 {
                data[end - 1] = last;
                readers.pass(&data);
            }
        }
    }
}

/// Packets and their padding, with the words of docs/RULES.md as the expectation.
fn step_fixed_packets(readers: &mut Readers) {
    let table: [(&[u8], Said); 6] = [
        (&[0x80, 0xCB, 0, 0], Said::answer(&[0, 4, 0, 4, 0, 0])),
        (&[0xA0, 0xCB, 0, 0], Said::refusal(5, &[])),
        (&[0xA0, 0xCB, 0, 1, 0, 0, 0, 2], Said::refusal(5, &[])),
        (
            &[0xA0, 0xCB, 0, 1, 0, 0, 0, 4],
            Said::answer(&[0, 8, 0, 8, 0, 4]),
        ),
        (&[0xA0, 0xCB, 0, 1, 0, 0, 0, 8], Said::refusal(5, &[])),
        (&[0x60, 0xCB, 0, 1, 0, 0, 0, 2], Said::refusal(2, &[1])),
    ];
    for (data, expected) in table {
        let (said, lent) = read_only(&mut readers.random, data, |data| ours::walk_step(data, 0));
        let numbers = [0];
        let case = Case::reading(data).numbers(&numbers);
        readers
            .step
            .table(|book| book.enter(expected, said, &[&lent.kept()], case));
        readers.step_from_everywhere(data);
    }
}

/// A step at a packet with every first and every last byte, at the lengths 4 to 24, alone and before another.
fn step_every_padding(readers: &mut Readers) {
    for words in 0..6 {
        let mut data = vec![];
        push_packet(&mut data, &mut readers.random, 0, 250, words);
        let end = data.len();
        push_packet(&mut data, &mut readers.random, 0x80, 250, 0);
        for first in 0..=255 {
            for last in 0..=255 {
                data[0] = first;
                data[end - 1] = last;
                readers.step(&data[..end], 0);
                readers.step(&data, 0);
            }
        }
    }
}

/// The datagrams of real senders walked from 0 to the end: whole, cut at every byte, with each bit of each header turned, and with
/// every last byte on a last packet that has the padding bit.
fn walk_traffic(readers: &mut Readers) {
    for data in traffic::datagrams() {
        let places = traffic::places(&data);
        for length in 0..=data.len() {
            readers.walk_through(&data[..length]);
        }
        for (_, damaged) in turned(&data, &places) {
            readers.walk_through(&damaged);
        }
        let mut padded = data;
        padded[places[places.len() - 1]] |= 0x20;
        let end = padded.len();
        for last in 0..=255 {
            padded[end - 1] = last;
            readers.walk_through(&padded);
        }
    }
}

/// Appends a packet with a body of `words` words.
fn push_packet(data: &mut Vec<u8>, random: &mut Random, first: u8, kind: u8, words: u16) {
    data.extend([first, kind]);
    data.extend(words.to_be_bytes());
    data.extend(any_bytes(random, 4 * usize::from(words)));
}

/// A whole compound of unpadded packets with types outside 200 to 207, and the places of its headers.
fn whole_compound(random: &mut Random, packets: usize) -> (Vec<u8>, Vec<usize>) {
    let (mut data, mut places) = (Vec::new(), Vec::new());
    for _ in 0..packets {
        places.push(data.len());
        let first = 0x80 | (random.byte() & 0x1F);
        let kind = random.pick(&[0, 1, 192, 199, 208, 255]);
        let words = random.below(4) as u16;
        push_packet(&mut data, random, first, kind, words);
    }
    (data, places)
}

/// Compounds of 1 to 60 packets and the datagrams of real senders, whole and damaged.
fn read_damaged_compounds(readers: &mut Readers) {
    for packets in 1..=60 {
        let (data, places) = whole_compound(&mut readers.random, packets);
        read_damaged(readers, &data, &places);
    }
    for data in traffic::datagrams() {
        readers.step_from_everywhere(&data);
        read_damaged(readers, &data, &traffic::places(&data));
    }
}

/// A compound cut at every byte, and with each bit of each header turned.
fn read_damaged(readers: &mut Readers, data: &[u8], places: &[usize]) {
    for length in 0..=data.len() {
        readers.read(&data[..length]);
        readers.step(&data[..length], places[places.len() / 2] as u64);
    }
    for (place, damaged) in turned(data, places) {
        readers.read(&damaged);
        readers.step(&damaged, place as u64);
    }
}

/// A compound with each bit of each header turned, and the place of that header.
fn turned<'a>(data: &'a [u8], places: &'a [usize]) -> impl Iterator<Item = (usize, Vec<u8>)> + 'a {
    let bits = places
        .iter()
        .flat_map(|&place| (0..32).map(move |bit| (place, bit)));
    bits.map(|(place, bit)| {
        let mut damaged = data.to_vec();
        damaged[place + bit / 8] ^= 0x80 >> (bit % 8);
        (place, damaged)
    })
}

/// Compounds of packets with any header, mostly whole, some of the largest length.
fn read_random_compounds(readers: &mut Readers, effort: &Effort) {
    for _ in 0..effort.at_least(100_000) {
        let random = &mut readers.random;
        let mut data = Vec::new();
        for _ in 0..random.below(6) {
            let clean = !random.once_in(5);
            let first = random.byte();
            let first = if clean { 0x80 | (first & 0x1F) } else { first };
            let kind = random.byte();
            let words = random.below(5) as u16;
            push_packet(&mut data, random, first, kind, words);
        }
        if random.once_in(4) {
            let length = random.below(7) as usize;
            let tail = random.bytes(length);
            data.extend(tail);
        }
        let offset = random.below(data.len() as u64 + 3);
        readers.read(&data);
        readers.step(&data, offset);
    }
    for first in [0x80, 0xA0, 0x40] {
        let mut data = Vec::new();
        push_packet(&mut data, &mut readers.random, first, 254, u16::MAX);
        push_packet(&mut data, &mut readers.random, 0x80, 254, 0);
        for length in 262_140..=data.len() {
            readers.read(&data[..length]);
            readers.step(&data[..length], 0);
            readers.step(&data[..length], 262_144);
        }
    }
}

/// What the plain writer takes, apart from the room.
struct Plain {
    count: u8,
    kind: u8,
    body: Vec<u8>,
    padding: u8,
}

impl Plain {
    fn builder(&self) -> UnknownBuilder<'_> {
        Unknown::builder(self.kind, &self.body)
            .count(self.count)
            .padding(self.padding)
    }

    /// The bytes of the packet, written by the crate into exactly the right size.
    fn bytes(&self) -> Vec<u8> {
        let mut bytes = vec![0; 4 + self.body.len() + usize::from(self.padding)];
        self.builder().write_into_unchecked(&mut bytes);
        bytes
    }

    /// What has to be said, in the order of docs/RULES.md: 8, 9, 11, 15; `bytes` is what the answer writes.
    fn expected(&self, bytes: &[u8], room: usize) -> Expected {
        let body = self.body.len() as u64;
        let needed = 4 + body + u64::from(self.padding);
        let size = match self.builder().calculate_size() {
            Err(RtcpWriteError::CountOutOfRange { count, .. }) => {
                return Said::refusal(8, &[count.into()]).into();
            }
            Err(RtcpWriteError::InvalidPadding { padding }) => {
                return Said::refusal(9, &[padding.into()]).into();
            }
            Err(other) => unreachable!("the plain writer does not say {other:?}"),
            Ok(size) => size as u64,
        };
        if body & 3 != 0 {
            return Expected::differing("odd body refused", Said::refusal(11, &[body]));
        }
        if needed > 262_144 {
            return Expected::differing("length field wraps", Said::refusal(11, &[body]));
        }
        let said = if (room as u64) < needed {
            Said::refusal(15, &[needed, room as u64])
        } else {
            Said::answer(&[bytes.len() as u64])
        };
        Expected {
            said,
            difference: (size != needed).then_some("size without padding"),
        }
    }

    fn numbers(&self) -> [i128; 3] {
        [self.count.into(), self.kind.into(), self.padding.into()]
    }

    fn case<'a>(&'a self, numbers: &'a [i128], out: &'a Lent<u8>, answer: &'a [u8]) -> Case<'a> {
        Case::reading(&self.body)
            .numbers(numbers)
            .lent(Memory::Bytes(out.was()), Memory::Bytes(answer))
    }

    fn enter(&self, book: &mut Book, random: &mut Random, bytes: &[u8], room: usize) {
        let body = Lent::holding(random, &self.body);
        let mut out = Lent::anything(random, room);
        let said = ours::unknown_write(
            self.count,
            self.kind,
            body.part(),
            self.padding,
            out.part_mut(),
        );
        let expected = self.expected(bytes, room);
        let answer = if expected.is_answer() { bytes } else { &[] };
        let numbers = self.numbers();
        let case = self.case(&numbers, &out, answer);
        book.enter(expected, said, &[&body.kept(), &out.after(answer)], case);
    }

    /// All rooms that matter for this packet.
    fn enter_rooms(&self, book: &mut Book, random: &mut Random) {
        let bytes = self.bytes();
        let needed = bytes.len();
        for room in [0, 3, needed - 1, needed, needed + 1, needed + 9] {
            self.enter(book, random, &bytes, room);
        }
    }
}

fn compare_write(effort: &Effort) -> Book {
    let mut book = effort.book("unknown_write");
    let random = &mut effort.random();
    book.table(|book| write_first_of_several(book, random));
    for number in 0..=255 {
        for length in 0..=12 {
            let paddings = [number, 0, 4, 252];
            for (count, padding) in [(number, 0), (31, number), (0, number), (number, 4)]
                .into_iter()
                .chain(paddings.map(|padding| (random.byte(), padding)))
            {
                let plain = Plain {
                    count,
                    kind: random.byte(),
                    body: random.bytes(length),
                    padding,
                };
                plain.enter_rooms(&mut book, random);
            }
        }
    }
    for length in 262_130..=262_146 {
        for padding in [0, 3, 4, 8, 252, 255] {
            let plain = Plain {
                count: 1,
                kind: 250,
                body: random.bytes(length),
                padding,
            };
            let bytes = plain.bytes();
            plain.enter(&mut book, random, &bytes, bytes.len());
            plain.enter(&mut book, random, &bytes, bytes.len() - 1);
            let even = Plain {
                body: any_bytes(random, length),
                ..plain
            };
            even.enter(&mut book, random, &even.bytes(), 8);
        }
    }
    for _ in 0..effort.at_least(40_000) {
        let length = 4 * random.below(400) as usize;
        let plain = Plain {
            count: random.below(32) as u8,
            kind: random.byte(),
            body: random.bytes(length),
            padding: 4 * random.below(64) as u8,
        };
        plain.enter_rooms(&mut book, random);
    }
    book
}

/// Every mixture of the four faults: the first one in the order of docs/RULES.md is named.
fn write_first_of_several(book: &mut Book, random: &mut Random) {
    for faults in 0..16 {
        let fault = |bit: u32| faults >> bit & 1 == 1;
        let plain = Plain {
            count: if fault(0) { 32 } else { 31 },
            kind: 207,
            body: random.bytes(if fault(2) { 7 } else { 8 }),
            padding: if fault(1) { 6 } else { 8 },
        };
        let room: usize = if fault(3) { 11 } else { 20 };
        let (expected, bytes) = match faults {
            _ if fault(0) => (Said::refusal(8, &[32]), vec![]),
            _ if fault(1) => (Said::refusal(9, &[6]), vec![]),
            _ if fault(2) => (Said::refusal(11, &[7]), vec![]),
            _ if fault(3) => (Said::refusal(15, &[20, 11]), vec![]),
            _ => (Said::answer(&[20]), plain.bytes()),
        };
        let body = Lent::bare(&plain.body);
        let mut out = Lent::anything(random, room);
        let said = ours::unknown_write(
            plain.count,
            plain.kind,
            body.part(),
            plain.padding,
            out.part_mut(),
        );
        let numbers = plain.numbers();
        let case = plain.case(&numbers, &out, &bytes);
        book.enter(expected, said, &[&body.kept(), &out.after(&bytes)], case);
    }
}
