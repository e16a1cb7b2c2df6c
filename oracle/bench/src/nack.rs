//! Reading and writing NACK entries, with the set built before or as part of the work.

use std::hint::black_box;

use ours::Random;
use rtcp_types::prelude::*;
use rtcp_types::{Nack, NackBuilder};

use crate::row::Row;

/// The bytes of a store, and of the most entries.
const STORE: usize = 8_192;
const MOST_BYTES: usize = 4 * 3_856;

pub fn rows() -> Vec<Row> {
    let counts = [2, 100, 32_768, 65_536];
    let kinds = [read, write, add_and_write];
    let rows = kinds.iter().flat_map(|row| counts.map(row));
    rows.collect()
}

/// That many numbers: spread at random where few, else every second one or all.
fn numbers(count: usize) -> Vec<u16> {
    match count {
        65_536 => (0..=u16::MAX).collect(),
        32_768 => (0..=u16::MAX).step_by(2).collect(),
        _ => {
            let mut random = Random::new(1);
            (0..count).map(|_| random.number() as u16).collect()
        }
    }
}

fn builder(numbers: &[u16]) -> NackBuilder {
    numbers
        .iter()
        .fold(NackBuilder::default(), |builder, number| {
            builder.add_rtp_sequence(*number)
        })
}

fn read(count: usize) -> Row {
    Row::new(format!("NACK read, {count} numbers"), move || {
        let mut data = vec![0; MOST_BYTES];
        let written = builder(&numbers(count)).write_into(&mut data);
        data.truncate(written.expect("the room is enough for every set"));
        let same = data.clone();
        let (mut list, mut rust_list) = (vec![0; count], vec![0; count]);
        (
            move || {
                black_box(ours::nack_read(black_box(&data), black_box(&mut list)));
            },
            move || {
                let nack = Nack::parse(black_box(&same)).expect("a NACK is never refused");
                let places = black_box(&mut rust_list).iter_mut();
                places
                    .zip(nack.entries())
                    .for_each(|(place, number)| *place = number);
            },
        )
    })
}

fn write(count: usize) -> Row {
    Row::new(format!("NACK write, {count} numbers"), move || {
        let mut store = vec![0; STORE];
        for number in numbers(count) {
            ours::nack_add(&mut store, number);
        }
        let builder = builder(&numbers(count));
        let (mut out, mut rust_out) = (vec![0; MOST_BYTES], vec![0; MOST_BYTES]);
        (
            move || {
                black_box(ours::nack_write(black_box(&store), black_box(&mut out)));
            },
            move || {
                let written = black_box(&builder).write_into(black_box(&mut rust_out));
                black_box(written.is_ok());
            },
        )
    })
}

fn add_and_write(count: usize) -> Row {
    Row::new(format!("NACK add and write, {count} numbers"), move || {
        let numbers = numbers(count);
        let same = numbers.clone();
        let mut store = vec![0; STORE];
        let (mut out, mut rust_out) = (vec![0; MOST_BYTES], vec![0; MOST_BYTES]);
        (
            move || {
                store.fill(0);
                for number in black_box(&numbers) {
                    ours::nack_add(&mut store, *number);
                }
                black_box(ours::nack_write(&store, black_box(&mut out)));
            },
            move || {
                let written = builder(black_box(&same)).write_into(black_box(&mut rust_out));
                black_box(written.is_ok());
            },
        )
    })
}
