//! The header fields, each read alone, and `check_packet`, against the crate's parsing helpers.

use ours::{Expect, Random, Said};
use rtcp_types::utils::parser;
use rtcp_types::{RtcpPacket, RtcpParseError};

use crate::case::{
    any_bytes, read_only, refused_reading, unless_it_panics, Book, Effort, Expected,
};
use crate::record::Case;

pub fn compare(effort: &Effort) -> Vec<Book> {
    let mut books: Vec<Book> = FIELDS.iter().map(|field| field.compare(effort)).collect();
    books.push(compare_padding(effort));
    books.push(compare_check_packet(effort));
    books
}

/// A field: our call, and the crate's.
struct Field {
    call: &'static str,
    ours: fn(&[u8]) -> Said,
    rust: fn(&[u8]) -> u64,
}

const FIELDS: [Field; 5] = [
    Field {
        call: "version",
        ours: ours::version,
        rust: |data| parser::parse_version(data).into(),
    },
    Field {
        call: "padding_bit",
        ours: ours::padding_bit,
        rust: |data| parser::parse_padding_bit(data).into(),
    },
    Field {
        call: "count",
        ours: ours::count,
        rust: |data| parser::parse_count(data).into(),
    },
    Field {
        call: "packet_type",
        ours: ours::packet_type,
        rust: |data| parser::parse_packet_type(data).into(),
    },
    Field {
        call: "length",
        ours: ours::length,
        rust: |data| parser::parse_length(data) as u64,
    },
];

impl Field {
    fn compare(&self, effort: &Effort) -> Book {
        let mut book = effort.book(self.call);
        let random = &mut effort.random();
        for_short_inputs(effort, |data| {
            let (said, lent) = read_only(random, data, self.ours);
            let expected = self.expected(data);
            book.enter(expected, said, &[&lent.kept()], Case::reading(data));
        });
        book
    }

    fn expected(&self, data: &[u8]) -> Expected {
        let answer = unless_it_panics(|| (self.rust)(data));
        match answer {
            Some(value) if data.len() >= 4 => Said::answer(&[value]).into(),
            _ => too_short_for_a_field(data, answer.is_some()),
        }
    }
}

/// A field wants 4 bytes; the crate answers some on fewer, and panics on the others.
fn too_short_for_a_field(data: &[u8], the_crate_answers: bool) -> Expected {
    Expected {
        said: Said::refusal(1, &[4, data.len() as u64]),
        difference: the_crate_answers.then_some("field read on under 4 bytes"),
    }
}

/// All first bytes over all lengths to 8, then random data.
fn for_short_inputs(effort: &Effort, mut visit: impl FnMut(&[u8])) {
    let random = &mut effort.random();
    for length in 0..=8 {
        for first in 0..=255 {
            for word in [
                [0, 0],
                [0, 1],
                [1, 0],
                [255, 255],
                [random.byte(), random.byte()],
            ] {
                let mut data = random.bytes(length);
                put(&mut data, 0, &[first]);
                put(&mut data, 2, &word);
                visit(&data);
            }
        }
    }
    for _ in 0..effort.at_least(20_000) {
        let length = random.below(64) as usize;
        visit(&random.bytes(length));
    }
}

/// Puts bytes at a place, as far as the data reach.
fn put(data: &mut [u8], place: usize, bytes: &[u8]) {
    for (old, new) in data.iter_mut().skip(place).zip(bytes) {
        *old = *new;
    }
}

fn compare_padding(effort: &Effort) -> Book {
    let mut book = effort.book("padding");
    let random = &mut effort.random();
    let mut visit = |random: &mut Random, data: &[u8]| {
        let (said, lent) = read_only(random, data, ours::padding);
        let expected = expected_padding(data);
        let kind = ["clear", "set"][expected.said.values[0].min(1) as usize];
        let case = Case::reading(data).kind(kind);
        book.enter(expected, said, &[&lent.kept()], case);
    };
    for_short_inputs(effort, |data| visit(random, data));
    for words in (0..=40).chain([255, 256, 4_095, 65_535]) {
        let stated = 4 * (words + 1);
        for length in [stated - 1, stated, stated + 1, stated + 5] {
            let mut data = any_bytes(random, length);
            for first in [0x80, 0xA0, 0x20, 0xFF] {
                put(&mut data, 0, &[first]);
                put(&mut data, 2, &(words as u16).to_be_bytes());
                visit(random, &data);
            }
        }
    }
    book
}

fn expected_padding(data: &[u8]) -> Expected {
    let answer = unless_it_panics(|| parser::parse_padding(data));
    if data.len() < 4 {
        return too_short_for_a_field(data, answer.is_some());
    }
    match answer {
        Some(Some(byte)) => Said::answer(&[1, byte.into()]).into(),
        Some(None) => Said::answer(&[0]).into(),
        None => Expected::differing(
            "panics without its padding byte",
            Said::refusal(1, &[parser::parse_length(data) as u64, data.len() as u64]),
        ),
    }
}

/// A packet kind of the crate with any least length and type.
struct Kind<const LEAST: usize, const TYPE: u8>;

impl<const LEAST: usize, const TYPE: u8> RtcpPacket for Kind<LEAST, TYPE> {
    const MIN_PACKET_LEN: usize = LEAST;
    const PACKET_TYPE: u8 = TYPE;
}

/// The crate's check for one kind.
#[derive(Clone, Copy)]
struct Check {
    least: u64,
    kind: u8,
    rust: fn(&[u8]) -> Result<(), RtcpParseError>,
}

const fn check<const LEAST: usize, const TYPE: u8>() -> Check {
    Check {
        least: LEAST as u64,
        kind: TYPE,
        rust: parser::check_packet::<Kind<LEAST, TYPE>>,
    }
}

const CHECKS: [Check; 15] = [
    check::<4, 0>(),
    check::<4, 203>(),
    check::<4, 255>(),
    check::<5, 207>(),
    check::<8, 201>(),
    check::<12, 205>(),
    check::<12, 206>(),
    check::<28, 200>(),
    check::<37, 128>(),
    check::<262_143, 202>(),
    check::<262_144, 204>(),
    check::<0, 200>(),
    check::<3, 203>(),
    check::<262_145, 205>(),
    check::<{ usize::MAX }, 255>(),
];

impl Check {
    fn enter(&self, book: &mut Book, random: &mut Random, data: &[u8]) {
        let (said, lent) = read_only(random, data, |data| {
            ours::check_packet(data, self.least, self.kind)
        });
        let numbers = [self.least.into(), self.kind.into()];
        let case = Case::reading(data).numbers(&numbers);
        book.enter(self.expected(data), said, &[&lent.kept()], case);
    }

    fn expected(&self, data: &[u8]) -> Expected {
        if !(4..=262_144).contains(&self.least) {
            return Expected::differing("least length refused", Said::refusal(17, &[self.least]));
        }
        match (self.rust)(data) {
            Ok(()) => Said::answer(&[]).into(),
            Err(error) => refused_reading(error).into(),
        }
    }
}

fn compare_check_packet(effort: &Effort) -> Book {
    let mut book = effort.book("check_packet");
    let random = &mut effort.random();
    book.table(|book| check_first_of_several(book, random));
    for check in CHECKS {
        check_short_packets(&check, &mut book, random);
        check_around_the_stated_length(&check, &mut book, random);
        for _ in 0..effort.at_least(20_000) {
            check_random_packet(&check, &mut book, random);
        }
    }
    book
}

/// Every first byte and length to 40, the right type and a wrong one, fields around the length, four last bytes.
fn check_short_packets(check: &Check, book: &mut Book, random: &mut Random) {
    for length in 0..=40_usize {
        let words = (length / 4) as u16;
        for first in 0..=255 {
            for kind in [check.kind, !check.kind] {
                for field in [words.wrapping_sub(2), words.wrapping_sub(1), words, 257] {
                    let last = random.pick(&[0, 1, 4, 255]);
                    let mut data = random.bytes(length);
                    data.iter_mut().rev().take(1).for_each(|byte| *byte = last);
                    put(&mut data, 0, &[first, kind]);
                    put(&mut data, 2, &field.to_be_bytes());
                    check.enter(book, random, &data);
                }
            }
        }
    }
}

/// Small and large length fields, every length around them, each last byte that matters, padded and not.
fn check_around_the_stated_length(check: &Check, book: &mut Book, random: &mut Random) {
    for field in (0..=12).chain([63, 255, 256, 4_095, 65_534, 65_535]) {
        let stated = 4 * (usize::from(field) + 1);
        for length in stated.saturating_sub(5)..=stated + 5 {
            for (first, last) in [(0x80, 0), (0xA0, 0), (0xA0, 1), (0xBF, 4), (0xA1, 255)] {
                let mut data = any_bytes(random, length);
                data.iter_mut().rev().take(1).for_each(|byte| *byte = last);
                put(&mut data, 0, &[first, check.kind]);
                put(&mut data, 2, &u16::to_be_bytes(field));
                check.enter(book, random, &data);
            }
        }
    }
}

fn check_random_packet(check: &Check, book: &mut Book, random: &mut Random) {
    let length = random.below(80) as usize;
    let mut data = random.bytes(length);
    if !random.once_in(8) {
        let first = 0x80 | (random.byte() & 0x3F);
        put(&mut data, 0, &[first, check.kind]);
    }
    if !random.once_in(4) {
        let field = (length / 4).saturating_sub(1) as u16;
        put(&mut data, 2, &field.to_be_bytes());
    }
    check.enter(book, random, &data);
}

/// Packets that deserve several refusals, with the one that docs/RULES.md names first.
fn check_first_of_several(book: &mut Book, random: &mut Random) {
    let table: [(&[u8], u64, u8, Said); 16] = [
        (&[], 0, 200, Said::refusal(17, &[0])),
        (&[], 3, 200, Said::refusal(17, &[3])),
        (&[], 262_145, 200, Said::refusal(17, &[262_145])),
        (&[], u64::MAX, 200, Said::refusal(17, &[u64::MAX])),
        (
            &[0x40, 9, 0, 0],
            262_145,
            200,
            Said::refusal(17, &[262_145]),
        ),
        (&[], 4, 200, Said::refusal(1, &[4, 0])),
        (&[0x40, 9, 0], 4, 200, Said::refusal(1, &[4, 3])),
        (
            &[0x40, 9, 0, 0],
            262_144,
            200,
            Said::refusal(1, &[262_144, 4]),
        ),
        (&[0x40, 9, 0, 0], 8, 200, Said::refusal(1, &[8, 4])),
        (&[0x40, 9, 0, 9], 4, 200, Said::refusal(2, &[1])),
        (&[0xE0, 9, 0, 0, 0], 4, 200, Said::refusal(2, &[3])),
        (&[0xA0, 9, 0, 1], 4, 200, Said::refusal(3, &[9, 200])),
        (&[0xA0, 9, 0, 0, 0], 4, 200, Said::refusal(3, &[9, 200])),
        (&[0xA0, 200, 0, 1, 0], 4, 200, Said::refusal(1, &[8, 5])),
        (&[0xA0, 200, 0, 0, 0], 4, 200, Said::refusal(4, &[4, 5])),
        (&[0xA0, 200, 0, 0], 4, 200, Said::refusal(5, &[])),
    ];
    for (data, least, kind, expected) in table {
        let (said, lent) = read_only(random, data, |data| ours::check_packet(data, least, kind));
        let numbers = [least.into(), kind.into()];
        let case = Case::reading(data).numbers(&numbers);
        book.enter(expected, said, &[&lent.kept()], case);
    }
}
