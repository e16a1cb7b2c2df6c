//! Writing TWCC blocks: a whole list as one block, and the mixed list in blocks of 1,200 bytes.

use std::hint::black_box;

use rtcp_types::prelude::*;
use rtcp_types::TwccBuilder;

use crate::row::Row;
use crate::twcc_read::{statuses, Kind, KINDS};

/// The entries of each list, and a room that is enough for every block.
const ENTRIES: usize = 16_384;
const ROOM: usize = 8 + 4 * ENTRIES;

pub fn rows() -> Vec<Row> {
    let mut rows: Vec<Row> = KINDS.iter().map(|kind| write(*kind, None)).collect();
    rows.push(write(KINDS[0], Some(1_200)));
    rows
}

/// Writes the whole list, block after block where there is a limit.
fn write((name, words): Kind, limit: Option<u64>) -> Row {
    let blocks = limit.map_or(String::new(), |limit| format!(", in blocks of {limit}"));
    let name = format!("TWCC write, {ENTRIES} entries, {name}{blocks}");
    Row::new(name, move || {
        let list = words(ENTRIES);
        let same = statuses(&list);
        let (mut out, mut rust_out) = (vec![0; ROOM], vec![0; ROOM]);
        (
            move || {
                let mut rest = &list[..];
                while !rest.is_empty() {
                    let said =
                        ours::twcc_write(7, 1, 2, black_box(rest), limit, black_box(&mut out));
                    rest = &rest[said.values[1] as usize..];
                }
            },
            move || {
                let limit = limit.map(|limit| limit as usize);
                let mut rest = &same[..];
                while !rest.is_empty() {
                    let builder = TwccBuilder::new(7, 1, 2, black_box(rest), limit);
                    black_box(builder.write_into(black_box(&mut rust_out)).is_ok());
                    rest = &rest[builder.packet_status_count()..];
                }
            },
        )
    })
}
