//! Reading TWCC blocks into a list of words, and the lists that both TWCC parts measure.

use std::hint::black_box;

use ours::Random;
use rtcp_types::prelude::*;
use rtcp_types::{RtcpParseError, Twcc, TwccBuilder, TwccPacketStatus};

use crate::row::Row;

/// The word of a packet that was not received.
const NOT_RECEIVED: i32 = 32_768;

/// A kind of list: its name, and its words.
pub type Kind = (&'static str, fn(usize) -> Vec<i32>);

pub const KINDS: [Kind; 5] = [
    ("mixed", mixed),
    ("all not received", |length| vec![NOT_RECEIVED; length]),
    ("all small", |length| vec![17; length]),
    ("all large", |length| vec![-300; length]),
    ("alternating", |length| {
        [NOT_RECEIVED, 17]
            .into_iter()
            .cycle()
            .take(length)
            .collect()
    }),
];

/// Runs of 1 to 12 equal symbols; half small, a quarter large, a quarter not received.
fn mixed(length: usize) -> Vec<i32> {
    let mut random = Random::new(1);
    let mut list = Vec::with_capacity(length + 12);
    while list.len() < length {
        let symbol = random.pick(&[0, 1, 1, 2]);
        for _ in 0..random.from_to(1, 12) {
            list.push(match symbol {
                0 => NOT_RECEIVED,
                1 => random.below(256) as i32,
                _ => 256 + random.below(8_000) as i32,
            });
        }
    }
    list.truncate(length);
    list
}

/// A list in the crate's own words.
pub fn statuses(list: &[i32]) -> Vec<TwccPacketStatus> {
    let status = |word: &i32| match *word {
        NOT_RECEIVED => TwccPacketStatus::NotReceived,
        delta => TwccPacketStatus::Received {
            delta: delta as i16,
        },
    };
    list.iter().map(status).collect()
}

pub fn rows() -> Vec<Row> {
    let lengths = [100, 8_000, 60_000];
    let rows = KINDS
        .iter()
        .flat_map(|kind| lengths.map(|length| read(*kind, length)));
    rows.collect()
}

fn read((name, words): Kind, length: usize) -> Row {
    Row::new(format!("TWCC read, {length} entries, {name}"), move || {
        let builder = TwccBuilder::new(7, 1, 2, &statuses(&words(length)), None);
        let mut block = vec![0; builder.calculate_size().expect("the time fits")];
        builder.write_into_unchecked(&mut block);
        let same = block.clone();
        let (mut list, mut rust_list) = (vec![0; length], vec![0; length]);
        (
            move || {
                black_box(ours::twcc_read(black_box(&block), black_box(&mut list)));
            },
            move || {
                let block = Twcc::parse(black_box(&same)).expect("a whole block");
                let places = black_box(&mut rust_list).iter_mut();
                places
                    .zip(block.packets())
                    .for_each(|(place, packet)| *place = word(packet));
            },
        )
    })
}

/// The word of a packet that the crate's iterator hands out.
fn word(packet: Result<(u16, TwccPacketStatus), RtcpParseError>) -> i32 {
    match packet {
        Ok((_, TwccPacketStatus::NotReceived)) => NOT_RECEIVED,
        Ok((_, TwccPacketStatus::Received { delta })) => delta.into(),
        Err(RtcpParseError::TwccDeltaTruncated) => 32_769,
        Err(_) => 32_770,
    }
}
