//! Copying, the plain writer, and parsing and walking compounds: of 1,400 bytes, of a real sender, and of long packets.

use std::hint::black_box;

use ours::Random;
use rtcp_types::prelude::*;
use rtcp_types::{Compound, Packet, Unknown};

use crate::row::Row;

/// A type that the crate's iterator reads as `Unknown`.
const KIND: u8 = 210;

/// The bytes of a compound here.
const WHOLE: usize = 1_400;

pub fn rows() -> Vec<Row> {
    let mut rows = Vec::new();
    for packets in [7, 50, 350] {
        rows.push(parse(format!("{packets} packets"), compound(packets)));
        rows.push(parse_and_walk(packets));
    }
    let sent = "4 packets as oRTP sent them".to_string();
    rows.push(parse(sent, packets_of(&[52, 12, 12, 16])));
    let long = "7 packets above 1024 bytes".to_string();
    let lengths = [1_028, 2_000, 1_200, 1_456, 1_800, 1_100, 1_304];
    rows.push(parse(long, packets_of(&lengths)));
    for length in [16, 1_200, 60_000] {
        rows.push(write(length));
        rows.push(write_beside_copy(length));
    }
    rows
}

/// Packets of these lengths, end to end.
fn packets_of(lengths: &[usize]) -> Vec<u8> {
    let mut data = Vec::new();
    for &length in lengths {
        let start = data.len();
        data.extend([0x80, KIND]);
        data.extend((length as u16 / 4 - 1).to_be_bytes());
        data.resize(start + length, 0);
    }
    data
}

/// Packets of equal length that fill the compound.
fn compound(packets: usize) -> Vec<u8> {
    packets_of(&vec![WHOLE / packets; packets])
}

fn parse(what: String, data: Vec<u8>) -> Row {
    Row::new(format!("parse, {what}"), move || {
        let (data, same) = (data.clone(), data.clone());
        (
            move || {
                black_box(ours::compound_parse(black_box(&data)));
            },
            move || {
                black_box(Compound::parse(black_box(&same)).is_ok());
            },
        )
    })
}

fn parse_and_walk(packets: usize) -> Row {
    Row::new(format!("parse and walk, {packets} packets"), move || {
        let data = compound(packets);
        let same = data.clone();
        (
            move || {
                let data = black_box(&data[..]);
                black_box(ours::compound_parse(data));
                let mut offset = 0;
                loop {
                    let step = ours::walk_step(data, offset);
                    if step.number != 0 || step.values[0] != 0 {
                        break;
                    }
                    let start = step.values[2] as usize;
                    black_box(&data[start..start + step.values[3] as usize]);
                    offset = step.values[1];
                }
            },
            move || {
                let compound = Compound::parse(black_box(&same)).expect("a whole compound");
                for packet in compound {
                    if let Ok(Packet::Unknown(packet)) = packet {
                        black_box(packet.data());
                    }
                }
            },
        )
    })
}

fn write(length: usize) -> Row {
    Row::new(format!("plain writer, {length} bytes of body"), move || {
        let body = Random::new(1).bytes(length);
        let same = body.clone();
        let (mut out, mut rust_out) = (vec![0; length + 4], vec![0; length + 4]);
        (
            move || {
                let said = ours::unknown_write(1, KIND, black_box(&body), 0, black_box(&mut out));
                black_box(said);
            },
            move || {
                let builder = Unknown::builder(KIND, black_box(&same)).count(1);
                black_box(builder.write_into(black_box(&mut rust_out)).is_ok());
            },
        )
    })
}

/// Our whole writer beside nothing but the copy of its body.
fn write_beside_copy(length: usize) -> Row {
    let name = format!("plain writer beside a bare copy, {length} bytes");
    Row::new(name, move || {
        let body = Random::new(1).bytes(length);
        let same = body.clone();
        let (mut out, mut rust_out) = (vec![0; length + 4], vec![0; length]);
        (
            move || {
                let said = ours::unknown_write(1, KIND, black_box(&body), 0, black_box(&mut out));
                black_box(said);
            },
            move || black_box(&mut rust_out).copy_from_slice(black_box(&same)),
        )
    })
}
