//! Generic NACK: adding to a store, writing a store and reading entries, against `NackBuilder` and `Nack`.

use std::collections::BTreeSet;

use ours::{Expect, Random, Said};
use rtcp_types::prelude::*;
use rtcp_types::{Nack, NackBuilder};

use crate::case::{Book, Effort, Lent};
use crate::record::{Case, Memory};
use crate::traffic;

/// The bytes of a store: one bit for each of the 65,536 numbers.
const STORE: usize = 8_192;

pub fn compare(effort: &Effort) -> Vec<Book> {
    vec![
        compare_add(effort),
        compare_read(effort),
        compare_write(effort),
    ]
}

/// The store of a set as docs/RULES.md has it: number n at byte n / 8, bit n mod 8, bit 0 worth 1.
fn store_of(numbers: &[u16]) -> Vec<u8> {
    let mut store = vec![0; STORE];
    for number in numbers {
        store[usize::from(number / 8)] |= 1 << (number % 8);
    }
    store
}

/// Lent bytes of any length, with the bits of a few numbers set.
fn store_of_length(random: &mut Random, length: usize) -> Lent<u8> {
    let mut store = vec![0; length];
    for _ in 0..random.below(8).min(length as u64) {
        let place = random.below(length.min(STORE) as u64) as usize;
        store[place] |= 1 << random.below(8);
    }
    Lent::holding(random, &store)
}

fn compare_add(effort: &Effort) -> Book {
    let mut book = effort.book("nack_add");
    let random = &mut effort.random();
    for number in [0, 1, 7, 8, 15, 16, 255, 256, 65_527, 65_528, 65_534, 65_535] {
        book.table(|book| {
            add_to(book, random, &[], number);
            add_to(book, random, &[number], number);
            add_to(book, random, &[0, 9, 65_535], number);
        });
    }
    for number in 0..=u16::MAX {
        add_to(&mut book, random, &[], number);
    }
    for _ in 0..effort.at_least(2_000) {
        let held: Vec<u16> = (0..random.below(200)).map(|_| any_number(random)).collect();
        let number = match held.last() {
            Some(&held) if random.once_in(2) => held,
            _ => any_number(random),
        };
        add_to(&mut book, random, &held, number);
    }
    for length in [0, 1, STORE - 1, STORE + 1, 2 * STORE] {
        for number in [0, 7, 8, 65_535] {
            let mut store = store_of_length(random, length);
            let said = ours::nack_add(store.part_mut(), number);
            let expected = Said::refusal(16, &[length as u64]);
            let numbers = [number.into()];
            let case = Case::default()
                .numbers(&numbers)
                .lent(Memory::Store(store.was()), Memory::Store(&[]));
            book.enter(expected, said, &[&store.kept()], case);
        }
    }
    book
}

fn any_number(random: &mut Random) -> u16 {
    random.number() as u16
}

/// Adds one number to the store of some others.
fn add_to(book: &mut Book, random: &mut Random, held: &[u16], number: u16) {
    let mut store = Lent::holding(random, &store_of(held));
    let said = ours::nack_add(store.part_mut(), number);
    let with_it: Vec<u16> = held.iter().copied().chain([number]).collect();
    let answer = store_of(&with_it);
    let numbers = [number.into()];
    let case = Case::default()
        .numbers(&numbers)
        .lent(Memory::Store(store.was()), Memory::Store(&answer))
        .kind(if held.contains(&number) { "held" } else { "" });
    book.enter(Said::answer(&[]), said, &[&store.after(&answer)], case);
}

fn compare_read(effort: &Effort) -> Book {
    let mut book = effort.book("nack_read");
    let random = &mut effort.random();
    let table: [&[u8]; 6] = [
        &[],
        &[0, 10, 0, 3],
        &[0, 10, 0, 3, 0xFF],
        &[0xFF, 0xFF, 0, 1],
        &[0xFF, 0xFE, 0xFF, 0xFF, 0xFF, 0xFE, 0x80, 1, 0, 0, 0],
        &[0, 5, 0, 0, 0, 5, 0, 0],
    ];
    for data in table {
        book.table(|book| read_rooms(book, random, data));
    }
    for base in [0_u16, 1, 65_535, 65_520] {
        for mask in 0..=u16::MAX {
            let [a, b] = base.to_be_bytes();
            let [c, d] = mask.to_be_bytes();
            read(&mut book, random, &[a, b, c, d], 17);
        }
    }
    for length in 0..=64 {
        for _ in 0..effort.at_least(2_000) / 40 {
            let data = random.bytes(length);
            read_rooms(&mut book, random, &data);
        }
    }
    for _ in 0..effort.at_least(2_000) {
        let numbers = some_numbers(random);
        let mut data = rust_bytes(&numbers);
        if !data.is_empty() && random.once_in(2) {
            let place = random.below(data.len() as u64) as usize;
            data[place] ^= 1 << random.below(8);
        }
        let trailing = random.below(4) as usize;
        data.extend(random.bytes(trailing));
        read_rooms(&mut book, random, &data);
    }
    for length in [4 * 3_856, 60_000, 65_535] {
        let data = random.bytes(length);
        read_rooms(&mut book, random, &data);
    }
    for block in traffic::blocks(1) {
        for length in 0..=block.len() {
            read_rooms(&mut book, random, &block[..length]);
        }
    }
    book
}

/// The numbers that the crate reads.
fn rust_numbers(data: &[u8]) -> Vec<u16> {
    match Nack::parse(data) {
        Ok(nack) => nack.entries().collect(),
        Err(error) => unreachable!("a NACK is never refused, but here: {error:?}"),
    }
}

/// Reads with rooms around the count.
fn read_rooms(book: &mut Book, random: &mut Random, data: &[u8]) {
    let count = rust_numbers(data).len();
    for room in [0, 1, count.saturating_sub(1), count, count + 1, count + 20] {
        read(book, random, data, room);
    }
}

fn read(book: &mut Book, random: &mut Random, data: &[u8], room: usize) {
    let numbers = rust_numbers(data);
    let lent = Lent::holding(random, data);
    let mut list = Lent::anything(random, room);
    let said = ours::nack_read(lent.part(), list.part_mut());
    let count = numbers.len() as u64;
    let (expected, answer): (Said, &[u16]) = if room < numbers.len() {
        (Said::refusal(15, &[count, room as u64]), &[])
    } else {
        (Said::answer(&[count]), &numbers)
    };
    let case = Case::reading(data).lent(Memory::Shorts(list.was()), Memory::Shorts(answer));
    book.enter(expected, said, &[&lent.kept(), &list.after(answer)], case);
}

fn compare_write(effort: &Effort) -> Book {
    let mut book = effort.book("nack_write");
    let random = &mut effort.random();
    let table: [&[u16]; 7] = [
        &[],
        &[0],
        &[65_535],
        &[0, 16],
        &[0, 17],
        &[65_535, 0],
        &[65_518, 65_519, 65_534, 65_535],
    ];
    for numbers in table {
        book.table(|book| write_rooms(book, random, numbers));
    }
    for mask in 0..=u16::MAX {
        let base: u16 = [0, 1, 65_535, 65_520][usize::from(mask ^ mask >> 2) % 4];
        let numbers = rust_numbers(&[base.to_be_bytes(), mask.to_be_bytes()].concat());
        write(&mut book, random, &numbers, &rust_bytes(&numbers), 8);
    }
    for multiple in (0..=65_535).step_by(17).chain([65_535, 0]) {
        let numbers = numbers_around(random, multiple);
        write_rooms(&mut book, random, &numbers);
    }
    for numbers in [
        vec![],
        (0..=u16::MAX).collect(),
        (0..=u16::MAX).step_by(2).collect(),
        (1..=u16::MAX).step_by(2).collect(),
        (0..=u16::MAX).step_by(17).collect(),
        (0..=u16::MAX).step_by(16).collect(),
        (3..60_000).collect(),
    ] as [Vec<u16>; 7]
    {
        write_rooms(&mut book, random, &numbers);
    }
    for _ in 0..effort.at_least(4_000) {
        let numbers = some_numbers(random);
        write_rooms(&mut book, random, &numbers);
    }
    for length in [0, 1, STORE - 1, STORE + 1, 2 * STORE] {
        for room in [0, 4, 20_000] {
            let store = store_of_length(random, length);
            let mut out: Lent<u8> = Lent::anything(random, room);
            let said = ours::nack_write(store.part(), out.part_mut());
            let expected = Said::refusal(16, &[length as u64]);
            let case = Case::default()
                .read(Memory::Store(store.was()))
                .lent(Memory::Bytes(out.was()), Memory::Bytes(&[]));
            book.enter(expected, said, &[&store.kept(), &out.kept()], case);
        }
    }
    book
}

/// Up to 40 numbers in a window of 64 around one, the wrap included.
fn numbers_around(random: &mut Random, middle: u16) -> Vec<u16> {
    (0..random.below(41))
        .map(|_| {
            middle
                .wrapping_add(random.below(64) as u16)
                .wrapping_sub(32)
        })
        .collect()
}

/// A set of any density: a few numbers, many, or windows near the ends.
fn some_numbers(random: &mut Random) -> Vec<u16> {
    match random.below(8) {
        0 => (0..random.below(3_000))
            .map(|_| any_number(random))
            .collect(),
        1 => {
            let middle = any_number(random);
            numbers_around(random, middle)
        }
        2 => numbers_around(random, 65_535),
        3 => numbers_around(random, 0),
        4 => {
            let step = random.from_to(1, 40) as usize;
            (any_number(random)..=u16::MAX)
                .step_by(step)
                .take(600)
                .collect()
        }
        _ => (0..random.below(40)).map(|_| any_number(random)).collect(),
    }
}

/// The bytes that the crate writes for a set.
fn rust_bytes(numbers: &[u16]) -> Vec<u8> {
    let builder = numbers
        .iter()
        .fold(NackBuilder::default(), |builder, number| {
            builder.add_rtp_sequence(*number)
        });
    let size = builder.calculate_size().expect("3,856 entries at most");
    let mut bytes = vec![0; size];
    builder.write_into_unchecked(&mut bytes);
    bytes
}

/// Writes with rooms around the size.
fn write_rooms(book: &mut Book, random: &mut Random, numbers: &[u16]) {
    let bytes = rust_bytes(numbers);
    let needed = bytes.len();
    let rooms: BTreeSet<usize> =
        [0, needed.saturating_sub(1), needed, needed + 1, needed + 40].into();
    for room in rooms {
        write(book, random, numbers, &bytes, room);
    }
}

fn write(book: &mut Book, random: &mut Random, numbers: &[u16], bytes: &[u8], room: usize) {
    let store = Lent::holding(random, &store_of(numbers));
    let mut out = Lent::anything(random, room);
    let said = ours::nack_write(store.part(), out.part_mut());
    let needed = bytes.len() as u64;
    let (expected, answer) = if room < bytes.len() {
        (Said::refusal(15, &[needed, room as u64]), &[][..])
    } else {
        (Said::answer(&[needed]), bytes)
    };
    let case = Case::default()
        .read(Memory::Store(store.was()))
        .lent(Memory::Bytes(out.was()), Memory::Bytes(answer));
    book.enter(expected, said, &[&store.kept(), &out.after(answer)], case);
}
