//! Writing TWCC blocks, against `TwccBuilder`, and whole lists cut into blocks and read back.

use ours::{Expect, Random, Said};
use rtcp_types::prelude::*;
use rtcp_types::{RtcpWriteError, TwccBuilder, TwccPacketStatus};

use crate::case::{Book, Effort, Expected, Left, Lent};
use crate::record::{Case, Memory};
use crate::twcc_read::NOT_RECEIVED;

/// The longest list that a call takes.
const MOST: usize = 16_384;

pub fn compare(effort: &Effort) -> Vec<Book> {
    let mut writer = Writer {
        random: effort.random(),
        write: effort.book("twcc_write"),
        whole: Book::new("twcc, cut, read"),
    };
    writer.write.keep_all(true);
    writer.write_fixed_blocks();
    writer.write.keep_all(false);
    writer.write_first_of_several();
    writer.write_longest_lists();
    writer.write_words_out_of_range();
    writer.write_every_short_string();
    writer.write_two_runs();
    writer.write_rooms_and_limits(effort);
    writer.cut_random_lists(effort);
    vec![writer.write, writer.whole]
}

/// What a block is written from, apart from the list and the room.
#[derive(Clone, Copy, Debug)]
struct Order {
    base: u16,
    time: u32,
    feedback: u8,
    limit: Option<u64>,
}

impl Order {
    /// The plain parameters of the call.
    fn numbers(&self) -> [i128; 5] {
        let limited = self.limit.is_some().into();
        let limit = self.limit.unwrap_or(0).into();
        let (base, time, feedback) = (self.base.into(), self.time.into(), self.feedback.into());
        [base, time, feedback, limited, limit]
    }

    /// What reading says of a whole block of this order with that many entries.
    fn reads_as(&self, taken: u64) -> Said {
        let (base, time, feedback) = (self.base.into(), self.time.into(), self.feedback.into());
        Said::answer(&[base, taken, time, feedback, taken])
    }
}

/// A block by the crate over cleared bytes, the entries it took, and whether it left bytes unwritten.
#[derive(Default)]
struct Block {
    bytes: Vec<u8>,
    taken: usize,
    unwritten: bool,
}

impl Block {
    /// What has to be said where nothing but the room can be refused.
    fn expected(&self, room: usize) -> Expected {
        let needed = self.bytes.len() as u64;
        if room < self.bytes.len() {
            return Said::refusal(15, &[needed, room as u64]).into();
        }
        Expected {
            said: Said::answer(&[needed, self.taken as u64]),
            difference: self.unwritten.then_some("padding left as it was"),
        }
    }
}

/// One call: the order, the lent list and the place to write from, and the room.
struct Call<'a> {
    order: Order,
    list: &'a Lent<i32>,
    from: usize,
    room: usize,
}

fn case<'a>(numbers: &'a [i128], list: &'a [i32], out: &'a Lent<u8>, answer: &'a [u8]) -> Case<'a> {
    Case::default()
        .numbers(numbers)
        .read(Memory::Words(list))
        .lent(Memory::Bytes(out.was()), Memory::Bytes(answer))
}

fn status_of(word: &i32) -> TwccPacketStatus {
    match *word {
        NOT_RECEIVED => TwccPacketStatus::NotReceived,
        delta => TwccPacketStatus::Received {
            delta: delta as i16,
        },
    }
}

fn rust_block(order: Order, statuses: &[TwccPacketStatus]) -> Block {
    let limit = order.limit.map(|limit| limit as usize);
    let builder = TwccBuilder::new(order.base, order.time, order.feedback, statuses, limit);
    let size = builder.calculate_size().expect("the time fits");
    let mut bytes = vec![0; size];
    builder.write_into_unchecked(&mut bytes);
    let mut over_others = vec![0xFF; size];
    builder.write_into_unchecked(&mut over_others);
    Block {
        unwritten: bytes != over_others,
        bytes,
        taken: builder.packet_status_count(),
    }
}

/// The refusals that do not depend on the room, in the order of docs/RULES.md: 10, 13, 12, 14.
fn refusal(order: Order, list: &[i32]) -> Option<Expected> {
    let empty = TwccBuilder::new(order.base, order.time, order.feedback, &[], None);
    if empty.calculate_size() == Err(RtcpWriteError::TwccReferenceTimeTooLarge) {
        return Some(Said::refusal(10, &[order.time.into()]).into());
    }
    if list.len() > MOST {
        return Some(Expected::differing(
            "long list refused",
            Said::refusal(13, &[list.len() as u64]),
        ));
    }
    if let Some(place) = list
        .iter()
        .position(|word| !(-32_768..=32_768).contains(word))
    {
        return Some(Said::refusal(12, &[place as u64]).into());
    }
    match order.limit {
        Some(limit) if limit < 8 => Some(Expected::differing(
            "limit below 8 refused",
            Said::refusal(14, &[limit]),
        )),
        _ => None,
    }
}

/// A fixed example: list, limit, the block's bytes after its base, entries taken.
type Example = (Vec<i32>, Option<u64>, &'static [u8], u64);

struct Writer {
    random: Random,
    write: Book,
    whole: Book,
}

impl Writer {
    /// An order with a random header.
    fn order(&mut self, limit: Option<u64>) -> Order {
        Order {
            base: self.random.number() as u16,
            time: self.random.below(1 << 24) as u32,
            feedback: self.random.byte(),
            limit,
        }
    }

    /// Writes a list with this much room more or less than the crate's block needs.
    fn write(&mut self, order: Order, list: &[i32], more: isize) {
        let refused = refusal(order, list);
        let block = match refused {
            Some(_) => Block::default(),
            None => {
                let statuses: Vec<TwccPacketStatus> = list.iter().map(status_of).collect();
                rust_block(order, &statuses)
            }
        };
        let call = Call {
            order,
            list: &Lent::holding(&mut self.random, list),
            from: 0,
            room: block.bytes.len().saturating_add_signed(more),
        };
        let expected = refused.unwrap_or_else(|| block.expected(call.room));
        self.write_block(&call, &block, expected);
    }

    /// One call of ours, compared with the crate's block; gives our words and our bytes.
    fn write_block(&mut self, call: &Call, block: &Block, expected: Expected) -> (Said, Vec<u8>) {
        let Call { order, room, .. } = *call;
        let list = &call.list.part()[call.from..];
        let mut out = Lent::anything(&mut self.random, room);
        let said = ours::twcc_write(
            order.base,
            order.time,
            order.feedback,
            list,
            order.limit,
            out.part_mut(),
        );
        let answer = match expected.is_answer() {
            true => &block.bytes[..],
            false => &[],
        };
        let bytes = &out.part()[..room.min(block.bytes.len())];
        let kind = match order.limit {
            _ if block.taken < list.len() => "cut",
            Some(_) => "limited",
            None => "whole",
        };
        let numbers = order.numbers();
        let case = case(&numbers, list, &out, answer).kind(kind);
        let memory: [&dyn Left; 2] = [&call.list.kept(), &out.after(answer)];
        self.write.enter(expected, said, &memory, case);
        (said, bytes.to_vec())
    }

    /// The fixed examples at base 1, with their own bytes as the expectation.
    fn write_fixed_blocks(&mut self) {
        let lost_then = |count: usize, delta| [vec![NOT_RECEIVED; count], vec![delta]].concat();
        let table: [Example; 16] = [
            (vec![], None, &[0, 0, 0, 0, 0, 0], 0),
            (
                vec![NOT_RECEIVED; 7],
                None,
                &[0, 7, 0, 0, 0, 0, 0xC0, 0, 0, 0],
                7,
            ),
            (
                vec![NOT_RECEIVED; 8],
                None,
                &[0, 8, 0, 0, 0, 0, 0, 8, 0, 0],
                8,
            ),
            (
                vec![NOT_RECEIVED; 8_192],
                None,
                &[0x20, 0, 0, 0, 0, 0, 0x1F, 0xFF, 0xC0, 0],
                8_192,
            ),
            (
                lost_then(8, 4),
                None,
                &[0, 9, 0, 0, 0, 0, 0x80, 0x20, 4, 0],
                9,
            ),
            (
                lost_then(8, 256),
                None,
                &[0, 9, 0, 0, 0, 0, 0, 8, 0xE0, 0, 1, 0, 0, 0],
                9,
            ),
            (vec![255], None, &[0, 1, 0, 0, 0, 0, 0xD0, 0, 0xFF, 0], 1),
            (vec![256], None, &[0, 1, 0, 0, 0, 0, 0xE0, 0, 1, 0], 1),
            (vec![-1], None, &[0, 1, 0, 0, 0, 0, 0xE0, 0, 0xFF, 0xFF], 1),
            (vec![0; 9], Some(12), &[0, 1, 0, 0, 0, 0, 0x20, 1, 0, 0], 1),
            (vec![0; 9], Some(8), &[0, 0, 0, 0, 0, 0], 0),
            (
                vec![256; 8],
                Some(24),
                &[
                    0, 6, 0, 0, 0, 0, 0x40, 6, 1, 0, 1, 0, 1, 0, 1, 0, 1, 0, 1, 0, 0, 0,
                ],
                6,
            ),
            (vec![256; 7], Some(23), &[0, 0, 0, 0, 0, 0], 0),
            (
                vec![256; 7],
                Some(24),
                &[
                    0, 7, 0, 0, 0, 0, 0xEA, 0xAA, 1, 0, 1, 0, 1, 0, 1, 0, 1, 0, 1, 0, 1, 0,
                ],
                7,
            ),
            (vec![], Some(8), &[0, 0, 0, 0, 0, 0], 0),
            (vec![], Some(u64::MAX), &[0, 0, 0, 0, 0, 0], 0),
        ];
        for (list, limit, after_base, taken) in table {
            let bytes = [&[0, 1], after_base].concat();
            let lent = Lent::bare(&list);
            let mut out = Lent::anything(&mut self.random, 30);
            let said = ours::twcc_write(1, 0, 0, lent.part(), limit, out.part_mut());
            let expected = Said::answer(&[bytes.len() as u64, taken]);
            let order = Order {
                base: 1,
                time: 0,
                feedback: 0,
                limit,
            };
            let numbers = order.numbers();
            let case = case(&numbers, &list, &out, &bytes);
            let memory: [&dyn Left; 2] = [&lent.kept(), &out.after(&bytes)];
            self.write.enter(expected, said, &memory, case);
        }
    }

    /// Lists that deserve several refusals: the first one in the order of docs/RULES.md is named.
    fn write_first_of_several(&mut self) {
        let faulty = [
            (16_777_216, 16_385, 32_769, 7, 7),
            (u32::MAX, 16_400, -32_769, 0, 0),
            (16_777_217, 65_536, i32::MAX, 1, 11),
            (1 << 31, 20_000, i32::MIN, 4, 3),
        ];
        for (turn, values) in faulty.into_iter().enumerate() {
            self.write.keep_all(turn == 0);
            for mixture in 0..32 {
                self.write_mixture(mixture, values);
            }
        }
    }

    /// A mixture of the five faults, one bit each: time, length, word, limit, room.
    fn write_mixture(&mut self, mixture: u32, faulty: (u32, usize, i32, u64, usize)) {
        let fault = |bit: u32| mixture >> bit & 1 == 1;
        let time = if fault(0) { faulty.0 } else { 16_777_215 };
        let mut list = vec![5; if fault(1) { faulty.1 } else { 2 }];
        list[1] = if fault(2) { faulty.2 } else { 5 };
        let limit = if fault(3) { faulty.3 } else { 12 };
        let room = if fault(4) { faulty.4 } else { 12 };
        let (expected, bytes): (Said, &[u8]) = match mixture {
            _ if fault(0) => (Said::refusal(10, &[time.into()]), &[]),
            _ if fault(1) => (Said::refusal(13, &[list.len() as u64]), &[]),
            _ if fault(2) => (Said::refusal(12, &[1]), &[]),
            _ if fault(3) => (Said::refusal(14, &[limit]), &[]),
            _ if fault(4) => (Said::refusal(15, &[12, room as u64]), &[]),
            _ => (
                Said::answer(&[12, 2]),
                &[0, 9, 0, 2, 0xFF, 0xFF, 0xFF, 1, 0xD4, 0, 5, 5],
            ),
        };
        let lent = Lent::bare(&list);
        let mut out = Lent::anything(&mut self.random, room);
        let said = ours::twcc_write(9, time, 1, lent.part(), Some(limit), out.part_mut());
        let order = Order {
            base: 9,
            time,
            feedback: 1,
            limit: Some(limit),
        };
        let numbers = order.numbers();
        let case = case(&numbers, &list, &out, bytes);
        let memory: [&dyn Left; 2] = [&lent.kept(), &out.after(bytes)];
        self.write.enter(expected, said, &memory, case);
    }

    /// Words out of range at any place of the longest list, before any limit; and lists at the bound.
    fn write_longest_lists(&mut self) {
        for place in [0, 1, 7, 8_191, 16_383] {
            let mut list = vec![NOT_RECEIVED; MOST];
            list[MOST - 1] = -32_769;
            list[place] = 32_769;
            for limit in [None, Some(0), Some(7), Some(8)] {
                let order = self.order(limit);
                self.write(order, &list, 0);
            }
        }
        for length in [MOST, MOST + 1, 70_000] {
            let order = self.order(None);
            self.write(order, &vec![NOT_RECEIVED; length], 0);
        }
    }

    /// Short lists with one to three words out of range, under any limit.
    fn write_words_out_of_range(&mut self) {
        for _ in 0..2_000 {
            let length = self.random.from_to(1, 30) as usize;
            let mut list = self.list(length);
            for _ in 0..self.random.from_to(1, 3) {
                let place = self.random.below(length as u64) as usize;
                list[place] = match self.random.below(4) {
                    0 => self.random.pick(&[i32::MIN, -65_536, 65_535, i32::MAX]),
                    1 => self.random.pick(&[-32_770, -32_769]),
                    _ => self.random.pick(&[32_769, 32_770]),
                };
            }
            let limit = self
                .random
                .pick(&[None, Some(0), Some(8), Some(24), Some(100)]);
            let order = self.order(limit);
            self.write(order, &list, 5);
        }
    }

    /// A word with this symbol.
    fn word(&mut self, symbol: u64) -> i32 {
        match symbol {
            0 => NOT_RECEIVED,
            1 => match self.random.below(4) {
                0 => self.random.pick(&[0, 1, 254, 255]),
                _ => self.random.below(256) as i32,
            },
            _ => match self.random.below(4) {
                0 => self.random.pick(&[256, -1, -256, 32_767, -32_768]),
                1 => -1 - self.random.below(32_768) as i32,
                _ => 256 + self.random.below(32_512) as i32,
            },
        }
    }

    /// Every string of up to 7 symbols, without a limit and with each from 8 to 40.
    fn write_every_short_string(&mut self) {
        for length in 1..=7 {
            for string in 0..3_u64.pow(length) {
                let list: Vec<i32> = (0..length)
                    .map(|place| self.word(string / 3_u64.pow(place) % 3))
                    .collect();
                for limit in (8..=40).map(Some).chain([None]) {
                    let order = self.order(limit);
                    self.write(order, &list, 3);
                }
            }
        }
    }

    /// A run, another run and up to two more symbols: the lengths at which the chunk rule turns.
    fn write_two_runs(&mut self) {
        for kinds in 0..27 {
            for first in 1..=17 {
                for second in 0..=17 {
                    let more = self.random.below(3) as usize;
                    let mut list = vec![];
                    for (symbol, length) in [
                        (kinds % 3, first),
                        (kinds / 3 % 3, second),
                        (kinds / 9, more),
                    ] {
                        list.extend((0..length).map(|_| self.word(symbol)));
                    }
                    for limit in [None, Some(8), Some(72)] {
                        let limit = limit.map(|limit| self.random.from_to(8, limit));
                        let order = self.order(limit);
                        self.write(order, &list, 0);
                    }
                }
            }
        }
    }

    /// Rooms around the size, times at their ends, limits of any size and those that are refused.
    fn write_rooms_and_limits(&mut self, effort: &Effort) {
        for _ in 0..effort.at_least(10_000) {
            let length = self.random.below(200) as usize;
            let list = self.list(length);
            let limit = match self.random.below(6) {
                0 => None,
                1 => Some(self.random.below(8)),
                2 => Some(self.random.from_to(u64::MAX - 3, u64::MAX)),
                3 => Some(self.random.from_to(8, 24)),
                _ => Some(self.random.from_to(8, 300)),
            };
            let mut order = self.order(limit);
            if self.random.once_in(4) {
                order.time = self.random.pick(&[0, 16_777_215, 16_777_216, u32::MAX]);
            }
            for more in [0, -1, 1, -1_000_000, 7] {
                self.write(order, &list, more);
            }
        }
    }

    /// A list of one of several characters: mixed, long runs, one-bit, of one kind.
    fn list(&mut self, length: usize) -> Vec<i32> {
        let longest = self.random.pick(&[1, 3, 9, 20, 60, 3_000, 16_384]);
        let kinds = self.random.pick(&[1, 2, 3, 3]);
        let shift = self.random.below(3);
        let mut list = Vec::with_capacity(length);
        while list.len() < length {
            let symbol = (self.random.below(kinds) + shift) % 3;
            let run = self.random.from_to(1, longest) as usize;
            for _ in 0..run.min(length - list.len()) {
                let word = self.word(symbol);
                list.push(word);
            }
        }
        list
    }

    /// Whole lists of 1 to 16,384 entries, cut into blocks by their limit and read back.
    fn cut_random_lists(&mut self, effort: &Effort) {
        for _ in 0..effort.at_least(20_000) {
            let length = match self.random.below(50) {
                0 => MOST,
                1 => self.random.from_to(1, MOST as u64) as usize,
                _ => {
                    let most = 1 << self.random.below(14);
                    self.random.from_to(1, most) as usize
                }
            };
            let list = self.list(length);
            let limit = match self.random.below(4) {
                0 => None,
                1 => Some(self.random.from_to(24, 40)),
                _ => Some(self.random.from_to(24, 2_000)),
            };
            let mut order = self.order(limit);
            if self.random.once_in(2) {
                order.base = (self.random.below(length as u64) as u16).wrapping_neg();
            }
            self.cut(order, &list);
        }
    }

    /// Demand 3: block by block, each of at least one entry, until the list is read back whole.
    fn cut(&mut self, mut order: Order, list: &[i32]) {
        let statuses: Vec<TwccPacketStatus> = list.iter().map(status_of).collect();
        let lent = Lent::holding(&mut self.random, list);
        let mut back = Vec::with_capacity(list.len());
        let mut sound = true;
        while sound && back.len() < list.len() {
            let block = rust_block(order, &statuses[back.len()..]);
            let call = Call {
                order,
                list: &lent,
                from: back.len(),
                room: block.bytes.len() + self.random.below(3) as usize,
            };
            let expected = block.expected(call.room);
            let (said, bytes) = self.write_block(&call, &block, expected);
            let taken = said.values[1];
            let within = order.limit.is_none_or(|limit| said.values[0] <= limit);
            let mut words = vec![0; block.taken];
            let read = ours::twcc_read(&bytes, &mut words);
            sound = said.number == 0 && taken > 0 && within && read == order.reads_as(taken);
            back.extend(words);
            order.base = order.base.wrapping_add(taken as u16);
            order.feedback = order.feedback.wrapping_add(1);
        }
        let said = Said::answer(&[back.len() as u64, sound.into()]);
        let expected = Said::answer(&[list.len() as u64, 1]);
        let numbers = order.numbers();
        let case = Case::default().numbers(&numbers).read(Memory::Words(list));
        let back = Lent::bare(&back);
        let as_given = &list[..back.part().len()];
        self.whole
            .enter(expected, said, &[&back.after(as_given)], case);
    }
}
