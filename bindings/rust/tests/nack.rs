//! NACK entries read and written.

mod common;

use bogslipper::nack::{self, STORE_LENGTH};
use bogslipper::{Nack, NackBuilder, Refusal};
use common::{bytes, Random};
use std::collections::BTreeSet;

fn builder(numbers: impl IntoIterator<Item = u16>) -> NackBuilder {
    numbers
        .into_iter()
        .fold(Nack::builder(), NackBuilder::add_rtp_sequence)
}

fn written(builder: &NackBuilder) -> Vec<u8> {
    let mut buf = vec![0x55; builder.calculate_size().expect("a size")];
    assert_eq!(builder.write_into(&mut buf), Ok(buf.len()));
    buf
}

fn listed(data: &[u8]) -> Vec<u16> {
    Nack::parse(data).expect("any bytes").into_entries()
}

#[test]
fn fixed_examples_written() {
    assert_eq!(written(&builder([0, 16])), bytes("00 00 80 00"));
    assert_eq!(written(&builder([0, 17])), bytes("00 00 00 00 00 11 00 00"));
    assert_eq!(
        written(&builder([65535, 0])),
        bytes("00 00 00 00 FF FF 00 00")
    );
    assert_eq!(written(&builder([])), []);
}

#[test]
fn fixed_examples_read() {
    assert_eq!(listed(&bytes("00 0A 00 03 FF")), [10, 11, 12]);
    assert_eq!(listed(&bytes("FF FF 00 01")), [65535, 0]);
    assert_eq!(listed(&bytes("00 01 02")), []);
}

#[test]
fn repeats_stay_and_masks_wrap() {
    assert_eq!(listed(&bytes("00 05 00 01 00 06 00 00")), [5, 6, 6]);
    assert_eq!(listed(&bytes("FF FA 80 20")), [65530, 0, 10]);
}

#[test]
fn the_whole_set_takes_3856_entries() {
    let whole = builder(0..=u16::MAX);
    assert_eq!(whole.calculate_size(), Ok(15_424));
    let data = written(&whole);
    assert!(listed(&data).into_iter().eq(0..=u16::MAX));
}

#[test]
fn reading_refuses_a_short_list_and_leaves_it() {
    let data = bytes("00 0A 00 03");
    let mut list = [9; 2];
    let refusal = Refusal::OutputTooSmall {
        needed: 3,
        present: 2,
    };
    assert_eq!(nack::read(&data, &mut list), Err(refusal));
    assert_eq!(list, [9; 2]);

    let mut list = [9; 5];
    assert_eq!(nack::read(&data, &mut list), Ok(3));
    assert_eq!(list, [10, 11, 12, 9, 9]);
}

#[test]
fn writing_tests_the_store_before_the_room() {
    for length in [0, 1, STORE_LENGTH - 1, STORE_LENGTH + 1] {
        let mut store = vec![0xFF; length];
        let refusal = Refusal::StoreLength { length };
        assert_eq!(nack::write(&store, &mut []), Err(refusal));
        assert_eq!(nack::add(&mut store, 0), Err(refusal));
        assert_eq!(store, vec![0xFF; length]);
    }
    let mut out = [0x55; 7];
    let refusal = Refusal::OutputTooSmall {
        needed: 8,
        present: 7,
    };
    assert_eq!(builder([0, 17]).write_into(&mut out), Err(refusal));
    assert_eq!(out, [0x55; 7]);
}

#[test]
fn writing_changes_no_byte_behind_the_entries() {
    let mut out = [0x55; 7];
    assert_eq!(builder([0]).write_into(&mut out), Ok(4));
    assert_eq!(out, [0, 0, 0, 0, 0x55, 0x55, 0x55]);
}

#[test]
fn adding_sets_one_bit() {
    for number in [0, 1, 7, 8, 9, 4_660, 65_528, 65_535] {
        let mut store = vec![0; STORE_LENGTH];
        assert_eq!(nack::add(&mut store, number), Ok(()));
        let mut expected = vec![0; STORE_LENGTH];
        expected[usize::from(number) / 8] = 1 << (number % 8);
        assert_eq!(store, expected);
    }
}

#[test]
fn adding_twice_changes_nothing() {
    assert_eq!(builder([5, 9, 5]), builder([9, 5]));
}

#[test]
fn a_builder_shows_its_numbers() {
    let shown = format!("{:?}", builder([65535, 0, 9]));
    assert_eq!(shown, "NackBuilder {0, 9, 65535}");
}

#[test]
fn written_sets_read_back() {
    let mut random = Random(3);
    for _ in 0..2_000 {
        let start = random.below(65_536);
        let widest = [20, 200, 65_536][random.below(3)];
        let spread = 1 + random.below(widest);
        let set: BTreeSet<u16> = (0..random.below(60))
            .map(|_| (start + random.below(spread)) as u16)
            .collect();
        let data = written(&builder(set.iter().copied()));
        assert_eq!(data.len() % 4, 0);
        assert!(listed(&data).into_iter().eq(set));
    }
}
