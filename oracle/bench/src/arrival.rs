//! Arrivals of a block's packets in milliseconds: read, then one step for each entry. The crate has no arrivals, so that its side
//! does what its callers do: its iterator, a sum, and a division.

use std::hint::black_box;

use rtcp_types::prelude::*;
use rtcp_types::{Twcc, TwccBuilder, TwccPacketStatus};

use crate::row::Row;
use crate::twcc_read::{statuses, Kind, KINDS};

pub fn rows() -> Vec<Row> {
    let [mixed, _, all_small, ..] = KINDS;
    let kinds = [mixed, all_small].into_iter();
    kinds
        .flat_map(|kind| [100, 8_000, 60_000].map(|length| arrivals(kind, length)))
        .collect()
}

fn arrivals((name, words): Kind, length: usize) -> Row {
    let row = format!("TWCC read and arrivals, {length} entries, {name}");
    Row::new(row, move || {
        let builder = TwccBuilder::new(7, 1, 2, &statuses(&words(length)), None);
        let mut block = vec![0; builder.calculate_size().expect("the time fits")];
        builder.write_into_unchecked(&mut block);
        let same = block.clone();
        let mut list = vec![0; length];
        let (mut times, mut rust_times) = (vec![0.0; length], vec![0.0; length]);
        (
            move || ours_into(black_box(&block), &mut list, black_box(&mut times)),
            move || rust_into(black_box(&same), black_box(&mut rust_times)),
        )
    })
}

/// Milliseconds for each packet, not a number where there are none.
fn ours_into(block: &[u8], list: &mut [i32], times: &mut [f64]) {
    let header = ours::twcc_read(block, list);
    let begun = ours::arrivals(header.values[2] as u32);
    let (mut placed, mut ticks) = (true, begun.values[1] as i64);
    for (time, word) in times.iter_mut().zip(list) {
        let entry = ours::arrivals_next(placed, ticks, *word);
        *time = match entry.values[0] {
            3 => f64::from_bits(entry.values[1]),
            _ => f64::NAN,
        };
        placed = entry.values[2] == 1;
        ticks = entry.values[3] as i64;
    }
}

fn rust_into(block: &[u8], times: &mut [f64]) {
    let block = Twcc::parse(block).expect("a whole block");
    let mut ticks = Some(i64::from(block.reference_time()) * 256);
    for (time, packet) in times.iter_mut().zip(block.packets()) {
        *time = match packet {
            Ok((_, TwccPacketStatus::Received { delta })) => {
                ticks = ticks.map(|ticks| ticks + i64::from(delta));
                ticks.map_or(f64::NAN, |ticks| ticks as f64 / 4.0)
            }
            Ok((_, TwccPacketStatus::NotReceived)) => f64::NAN,
            Err(_) => {
                ticks = None;
                f64::NAN
            }
        };
    }
}
