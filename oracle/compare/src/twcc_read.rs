//! Reading a TWCC block into a list of words, against `Twcc` and its iterator over packets.

use ours::{Expect, Random, Said};
use rtcp_types::prelude::*;
use rtcp_types::{RtcpParseError, Twcc, TwccPacketStatus};

use crate::case::{refused_reading, Book, Effort, Left, Lent};
use crate::record::{Case, Memory};
use crate::traffic;

/// The words of a status list that are no deltas.
pub const NOT_RECEIVED: i32 = 32_768;
const TRUNCATED: i32 = 32_769;
const RESERVED: i32 = 32_770;

pub fn compare(effort: &Effort) -> Vec<Book> {
    let mut reader = Reader {
        random: effort.random(),
        book: effort.book("twcc_read"),
    };
    reader.book.keep_all(true);
    reader.read_fixed_blocks();
    reader.book.keep_all(false);
    reader.read_long_runs();
    reader.read_every_chunk();
    reader.read_random_blocks(effort);
    reader.read_cut_blocks(effort);
    reader.read_long_blocks();
    reader.read_traffic();
    vec![reader.book]
}

/// The words that the crate's iterator stands for. It numbers each packet from the base on.
fn rust_words(block: &Twcc) -> Vec<i32> {
    let base = block.base_sequence_number();
    let word = |(place, packet)| match packet {
        Ok((number, status)) => {
            assert_eq!(number, base.wrapping_add(place as u16));
            word_of(status)
        }
        Err(RtcpParseError::TwccDeltaTruncated) => TRUNCATED,
        Err(RtcpParseError::TwccReservedPacketStatus) => RESERVED,
        Err(other) => unreachable!("no entry says {other:?}"),
    };
    block.packets().enumerate().map(word).collect()
}

fn word_of(status: TwccPacketStatus) -> i32 {
    match status {
        TwccPacketStatus::NotReceived => NOT_RECEIVED,
        TwccPacketStatus::Received { delta } => delta.into(),
    }
}

fn case<'a>(block: &'a [u8], list: &'a Lent<i32>, words: &'a [i32]) -> Case<'a> {
    let kind = match words.iter().max() {
        Some(&RESERVED) => "reserved",
        Some(&TRUNCATED) => "truncated",
        Some(_) => "sound",
        None => "none",
    };
    Case::reading(block)
        .lent(Memory::Words(list.was()), Memory::Words(words))
        .kind(kind)
}

struct Reader {
    random: Random,
    book: Book,
}

impl Reader {
    /// Reads a block with rooms around the count listed.
    fn read_rooms(&mut self, block: &[u8]) {
        let count = Twcc::parse(block).map_or(0, |block| rust_words(&block).len());
        for room in [0, count.saturating_sub(1), count, count + 1] {
            self.read(block, room);
        }
    }

    /// Reads a block with about the room it needs: one place too few, or up to three more.
    fn read_nearly(&mut self, block: &[u8]) {
        let count = Twcc::parse(block).map_or(0, |block| rust_words(&block).len());
        let room = count + self.random.below(5) as usize;
        self.read(block, room.saturating_sub(1));
    }

    fn read(&mut self, block: &[u8], room: usize) {
        let list = Lent::anything(&mut self.random, room);
        self.read_into(block, list);
    }

    fn read_into(&mut self, block: &[u8], mut list: Lent<i32>) {
        let (expected, words) = expected_read(block, list.was().len());
        let lent = Lent::holding(&mut self.random, block);
        let said = ours::twcc_read(lent.part(), list.part_mut());
        let memory: [&dyn Left; 2] = [&lent.kept(), &list.after(&words)];
        let case = case(block, &list, &words);
        self.book.enter(expected, said, &memory, case);
    }

    /// The fixed examples, with their own words as the expectation.
    fn read_fixed_blocks(&mut self) {
        let table: [(&[u8], &[i32]); 4] = [
            (&[0, 5, 0, 2, 0, 0, 0, 0, 0xE4, 0, 0x7F], &[TRUNCATED; 2]),
            (&[0, 5, 0, 2, 0, 0, 0, 0, 0xF4, 0, 9], &[RESERVED, 9]),
            (&[0, 5, 0, 1, 0, 0, 0, 0, 0x20, 0, 0x20, 1, 9], &[9]),
            (&[0, 5, 0, 0, 0, 0, 0, 0], &[]),
        ];
        for (block, words) in table {
            let lent = Lent::bare(block);
            let mut list = Lent::anything(&mut self.random, 4);
            let said = ours::twcc_read(lent.part(), list.part_mut());
            let expected = Said::answer(&[5, block[3].into(), 0, 0, words.len() as u64]);
            let memory: [&dyn Left; 2] = [&lent.kept(), &list.after(words)];
            let case = case(block, &list, words);
            self.book.enter(expected, said, &memory, case);
            self.read_rooms(block);
        }
    }

    /// Runs of the greatest length into even memory: lost packets, and packets without their deltas.
    fn read_long_runs(&mut self) {
        for (chunk, count) in [(0x1FFF, 8_191), (0x3FFF, 16_000), (0x7FFF, 65_535)] {
            let chunks = vec![chunk; usize::from(count).div_ceil(8_191)];
            let block = self.block(count, &chunks, 0);
            for room in [0, count - 1, count, count.saturating_add(1)] {
                let list = Lent::holding(&mut self.random, &vec![7; usize::from(room)]);
                self.read_into(&block, list);
            }
        }
    }

    /// Every chunk word with several delta tails and status counts; then all runs at full length.
    fn read_every_chunk(&mut self) {
        for chunk in 0..=u16::MAX {
            for (count, tail) in [(1, 0), (6, 1), (7, 14), (14, 3), (20, 13), (15, 41)] {
                let count = count + self.random.below(2) as u16;
                let block = self.block(count, &[chunk], tail);
                self.read_nearly(&block);
            }
        }
        for chunk in (0..0x8000).step_by(3) {
            let tail = self.random.below(20_000) as usize;
            let block = self.block(8_200, &[chunk], tail);
            self.read_nearly(&block);
        }
    }

    /// A block of these chunks and a random header and tail.
    fn block(&mut self, count: u16, chunks: &[u16], tail: usize) -> Vec<u8> {
        let mut block = self.random.bytes(8);
        block[2..4].copy_from_slice(&count.to_be_bytes());
        block.extend(chunks.iter().flat_map(|chunk| chunk.to_be_bytes()));
        block.extend(self.random.bytes(tail));
        block
    }

    /// Random bytes of every length to 600, the status count large, small or of one byte.
    fn read_random_blocks(&mut self, effort: &Effort) {
        for length in 0..=600 {
            for turn in 0..effort.at_least(3_000) / 600 + 2 {
                let mut block = self.random.bytes(length);
                if length >= 4 && turn % 4 != 0 {
                    block[2] = 0;
                }
                self.read_nearly(&block);
            }
        }
    }

    /// Sensible blocks, with about the deltas they need, whole and cut at every byte.
    fn read_cut_blocks(&mut self, effort: &Effort) {
        for _ in 0..effort.at_least(1_500) {
            let chunks: Vec<u16> = (0..self.random.below(6))
                .map(|_| self.short_chunk())
                .collect();
            let most: u64 = chunks.iter().map(|chunk| entries_of(*chunk)).sum();
            let count = (most + 2).saturating_sub(self.random.below(9)) as u16;
            let tail = self.random.below(2 * most + 3) as usize;
            let block = self.block(count, &chunks, tail);
            self.read_cut(&block);
        }
    }

    /// The blocks of real senders, cut at every byte, and with each bit turned.
    fn read_traffic(&mut self) {
        for block in traffic::blocks(15) {
            self.read_cut(&block);
            for bit in 0..8 * block.len() {
                let mut damaged = block.clone();
                damaged[bit / 8] ^= 0x80 >> (bit % 8);
                self.read_rooms(&damaged);
            }
        }
    }

    /// A block cut at every byte.
    fn read_cut(&mut self, block: &[u8]) {
        self.read_rooms(block);
        for length in 0..block.len() {
            self.read_nearly(&block[..length]);
        }
    }

    /// A vector of either kind, or a run of at most 20.
    fn short_chunk(&mut self) -> u16 {
        let number = self.random.number() as u16;
        match self.random.below(3) {
            0 => number & 0x6000 | self.random.below(21) as u16,
            1 => 0x8000 | number & 0x3FFF,
            _ => 0xC000 | number & 0x3FFF,
        }
    }

    /// Blocks of 60,000 entries and of the most there can be, in chunks of all kinds and of each kind alone.
    fn read_long_blocks(&mut self) {
        for turn in 0..16 {
            let count = [60_000, 65_535][turn % 2];
            let (mut chunks, mut held) = (Vec::new(), 0);
            while held < u64::from(count) {
                let any = self.random.number() as u16;
                let chunk = match turn / 2 {
                    0 => 0x1FFF,
                    1 => 0x3FFF,
                    2 => 0x5FFF,
                    3 => 0x8000 | any & 0x3FFF,
                    4 => 0xC000 | any & 0x3FFF,
                    5 => any,
                    _ => self.short_chunk(),
                };
                held += entries_of(chunk);
                chunks.push(chunk);
            }
            let tail = self.random.from_to(40_000, 140_000) as usize;
            let block = self.block(count, &chunks, tail);
            self.read_rooms(&block);
        }
    }
}

/// How many entries a chunk word stands for.
fn entries_of(chunk: u16) -> u64 {
    match chunk >> 14 {
        2 => 14,
        3 => 7,
        _ => u64::from(chunk & 0x1FFF),
    }
}

/// What has to be said, and the words that are listed.
fn expected_read(block: &[u8], room: usize) -> (Said, Vec<i32>) {
    let twcc = match Twcc::parse(block) {
        Ok(twcc) => twcc,
        Err(error) => return (refused_reading(error), vec![]),
    };
    let words = rust_words(&twcc);
    let listed = words.len() as u64;
    if room < words.len() {
        return (Said::refusal(15, &[listed, room as u64]), vec![]);
    }
    let said = Said::answer(&[
        twcc.base_sequence_number().into(),
        u16::from_be_bytes([block[2], block[3]]).into(),
        twcc.reference_time().into(),
        twcc.feedback_packet_count().into(),
        listed,
    ]);
    (said, words)
}
