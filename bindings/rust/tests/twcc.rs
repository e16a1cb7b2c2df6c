//! TWCC blocks read and written, lists cut into blocks, and arrivals.

mod common;

use bogslipper::twcc::{
    self, arrivals, CutError, TwccHeader, TwccWritten, MAX_ENTRIES, NOT_RECEIVED, RESERVED,
    TRUNCATED,
};
use bogslipper::{
    Refusal, Twcc, TwccArrival, TwccBlocks, TwccPacketStatus, TWCC_MAX_REFERENCE_TIME,
};
use common::{bytes, Random};
use TwccPacketStatus::{NotReceived, Received, Reserved, Truncated};

fn received(delta: i16) -> TwccPacketStatus {
    Received { delta }
}

/// The block of base 1, time 0 and feedback count 0 for the front of a list, and the entries taken.
fn written(list: &[TwccPacketStatus], limit: Option<usize>) -> (Vec<u8>, usize) {
    let builder = Twcc::builder(1, 0, 0, list, limit);
    let size = builder.calculate_size().expect("a size");
    let mut buf = vec![0x55; size + 3];
    let TwccWritten { bytes, taken } = builder.write_into(&mut buf).expect("a block");
    assert_eq!(bytes, size);
    assert_eq!(buf[size..], [0x55; 3]);
    buf.truncate(size);
    (buf, taken)
}

/// The block without limit, which takes the whole list.
fn whole(list: &[TwccPacketStatus]) -> Vec<u8> {
    let (block, taken) = written(list, None);
    assert_eq!(taken, list.len());
    block
}

#[test]
fn fixed_examples_of_chunks() {
    let mut eight_and_small = vec![NotReceived; 8];
    eight_and_small.push(received(4));
    let mut eight_and_large = vec![NotReceived; 8];
    eight_and_large.push(received(256));

    assert_eq!(whole(&[]), bytes("00 01 00 00 00 00 00 00"));
    assert_eq!(whole(&[NotReceived; 7])[8..], bytes("C0 00 00 00"));
    assert_eq!(whole(&[NotReceived; 8])[8..], bytes("00 08 00 00"));
    assert_eq!(whole(&[NotReceived; 8_192])[8..], bytes("1F FF C0 00"));
    assert_eq!(whole(&eight_and_small)[8..], bytes("80 20 04 00"));
    assert_eq!(
        whole(&eight_and_large)[8..],
        bytes("00 08 E0 00 01 00 00 00")
    );
}

#[test]
fn fixed_examples_of_deltas() {
    assert_eq!(
        whole(&[received(255)]),
        bytes("00 01 00 01 00 00 00 00 D0 00 FF 00")
    );
    assert_eq!(whole(&[received(256)])[8..], bytes("E0 00 01 00"));
    assert_eq!(whole(&[received(-1)])[8..], bytes("E0 00 FF FF"));
}

#[test]
fn fixed_examples_of_limits() {
    let (block, taken) = written(&[received(0); 9], Some(12));
    assert_eq!((block[8..10].to_vec(), taken), (bytes("20 01"), 1));
    let (block, taken) = written(&[received(0); 9], Some(8));
    assert_eq!((block.len(), taken), (8, 0));
    let (block, taken) = written(&[received(256); 8], Some(24));
    assert_eq!((block[8..10].to_vec(), taken), (bytes("40 06"), 6));
    assert_eq!(written(&[received(256); 7], Some(23)).1, 0);
    assert_eq!(written(&[received(256); 7], Some(24)).1, 7);
}

#[test]
fn fixed_examples_read() {
    let packets = |hex: &str| {
        let twcc = Twcc::parse(&bytes(hex)).expect("a block");
        twcc.packets().collect::<Vec<_>>()
    };
    assert_eq!(
        packets("00 05 00 02 00 00 00 00 E4 00 7F"),
        [(5, Truncated), (6, Truncated)]
    );
    assert_eq!(
        packets("00 05 00 02 00 00 00 00 F4 00 09"),
        [(5, Reserved), (6, received(9))]
    );
    assert_eq!(
        packets("00 05 00 01 00 00 00 00 20 00 20 01 09"),
        [(5, received(9))]
    );
}

#[test]
fn the_header_is_answered() {
    let block = bytes("12 34 00 03 AB CD EF 77");
    let header = TwccHeader {
        base: 0x1234,
        status_count: 3,
        reference_time: 0x00AB_CDEF,
        feedback: 0x77,
        listed: 0,
    };
    assert_eq!(twcc::read(&block, &mut []), Ok(header));

    let twcc = Twcc::parse(&block).expect("a block");
    assert_eq!(twcc.base_sequence_number(), 0x1234);
    assert_eq!(twcc.packet_status_count(), 3);
    assert_eq!(twcc.reference_time(), 0x00AB_CDEF);
    assert_eq!(twcc.feedback_packet_count(), 0x77);
    assert_eq!(twcc.statuses(), []);
}

#[test]
fn fewer_are_listed_where_the_chunks_run_out() {
    let block = bytes("00 05 00 09 00 00 00 00 00 02");
    let refusal = Refusal::OutputTooSmall {
        needed: 2,
        present: 1,
    };
    assert_eq!(twcc::read(&block, &mut [0; 1]), Err(refusal));

    let twcc = Twcc::parse(&block).expect("a block");
    assert_eq!(twcc.packet_status_count(), 9);
    assert_eq!(twcc.statuses(), [NotReceived; 2]);
}

#[test]
fn numbers_go_on_at_0_behind_65535() {
    let block =
        bytes("FF FE FF FF 00 00 00 00 1F FF 1F FF 1F FF 1F FF 1F FF 1F FF 1F FF 1F FF 1F FF");
    let twcc = Twcc::parse(&block).expect("a block");
    let numbers = twcc.packets().map(|(number, _)| number);
    assert_eq!(twcc.statuses().len(), 65_535);
    assert!(numbers.eq((65_534..=65_535).chain(0..=65_532)));
}

#[test]
fn reading_tests_in_its_order() {
    let refusal = Refusal::Truncated {
        expected: 8,
        actual: 7,
    };
    assert_eq!(twcc::read(&[0xFF; 7], &mut []), Err(refusal));

    let block = bytes("00 05 00 02 00 00 00 00 C4 00 09");
    let mut list = [77; 1];
    let refusal = Refusal::OutputTooSmall {
        needed: 2,
        present: 1,
    };
    assert_eq!(twcc::read(&block, &mut list), Err(refusal));
    assert_eq!(list, [77]);

    let mut list = [77; 3];
    assert_eq!(
        twcc::read(&block, &mut list).map(|header| header.listed),
        Ok(2)
    );
    assert_eq!(list, [twcc::NOT_RECEIVED, 9, 77]);
}

#[test]
fn writing_tests_in_its_order() {
    let time = TWCC_MAX_REFERENCE_TIME + 1;
    let mut long = vec![0; MAX_ENTRIES + 1];
    long[MAX_ENTRIES] = 32_769;
    long[MAX_ENTRIES - 1] = -32_769;
    let list = &long[..MAX_ENTRIES];
    let mut out = [0x55; 11];
    let mut write = |time, list: &[i32], limit| {
        let refusal = twcc::write(1, time, 0, list, Some(limit), &mut out).expect_err("a refusal");
        assert_eq!(out, [0x55; 11]);
        refusal
    };

    assert_eq!(
        write(time, &long, 7),
        Refusal::ReferenceTimeTooLarge { time }
    );
    assert_eq!(write(0, &long, 7), Refusal::ListTooLong { length: 16_385 });
    assert_eq!(
        write(0, list, 7),
        Refusal::StatusOutOfRange { place: 16_383 }
    );
    assert_eq!(write(0, &list[..1], 7), Refusal::LimitTooSmall { limit: 7 });
    assert_eq!(write(0, &[], 7), Refusal::LimitTooSmall { limit: 7 });
    let refusal = Refusal::OutputTooSmall {
        needed: 12,
        present: 11,
    };
    assert_eq!(write(0, &list[..1], 12), refusal);
}

#[test]
fn entries_that_could_not_be_read_are_not_written() {
    for status in [Truncated, Reserved] {
        let list = [NotReceived, received(1), status];
        let refusal = Refusal::StatusOutOfRange { place: 2 };
        assert_eq!(
            Twcc::builder(1, 0, 0, &list, None).calculate_size(),
            Err(refusal)
        );
    }
}

#[test]
fn statuses_and_words_are_the_same() {
    for word in -32_768..=32_770 {
        let status = TwccPacketStatus::from_word(word).expect("a status");
        assert_eq!(status.to_word(), word);
    }
    for word in [i32::MIN, -32_769, 32_771, i32::MAX] {
        assert_eq!(TwccPacketStatus::from_word(word), None);
    }
}

fn at(ticks: i64, milliseconds: f64) -> TwccArrival {
    TwccArrival::Arrived {
        ticks,
        milliseconds,
    }
}

#[test]
fn arrivals_sum_the_deltas_up() {
    let all = |time, words: &[i32]| -> Vec<TwccArrival> {
        let arrivals = arrivals(time, words.iter().copied());
        arrivals.expect("a time that fits").collect()
    };
    assert_eq!(
        all(1, &[4, 4, -8]),
        [at(260, 65.0), at(264, 66.0), at(256, 64.0)]
    );
    assert_eq!(all(0, &[-2, -3]), [at(-2, -0.5), at(-5, -1.25)]);
    assert_eq!(
        all(TWCC_MAX_REFERENCE_TIME, &[32_767, 32_767]),
        [
            at(4_294_999_807, 1_073_749_951.75),
            at(4_295_032_574, 1_073_758_143.5)
        ]
    );
    assert_eq!(all(7, &[]), []);
}

#[test]
fn behind_an_unreadable_entry_nothing_is_placed() {
    for unreadable in [TRUNCATED, RESERVED, 32_771, -32_769, i32::MIN, i32::MAX] {
        let words = [4, unreadable, 4, NOT_RECEIVED, 4];
        let arrivals: Vec<_> = arrivals(0, words).expect("a time that fits").collect();
        let expected = [
            at(4, 1.0),
            TwccArrival::Unreadable,
            TwccArrival::Unplaced,
            TwccArrival::Missing,
            TwccArrival::Unplaced,
        ];
        assert_eq!(arrivals, expected);
    }
}

#[test]
fn zero_milliseconds_have_no_sign() {
    let mut arrivals = arrivals(0, [-4, 4]).expect("a time that fits");
    assert_eq!(arrivals.next(), Some(at(-4, -1.0)));
    let Some(TwccArrival::Arrived { milliseconds, .. }) = arrivals.next() else {
        panic!("the second packet arrived");
    };
    assert_eq!(milliseconds.to_bits(), 0);
}

#[test]
fn arrivals_refuse_a_time_that_does_not_fit() {
    for time in [TWCC_MAX_REFERENCE_TIME + 1, u32::MAX] {
        let refusal = Refusal::ReferenceTimeTooLarge { time };
        assert_eq!(arrivals(time, [0]).err(), Some(refusal));
    }
}

#[test]
fn arrivals_are_as_many_as_entries() {
    let arrivals = arrivals(0, [0; 9]).expect("a time that fits");
    assert_eq!(arrivals.len(), 9);
    assert_eq!(arrivals.count(), 9);
}

/// A block that Chromium sent, taken apart by hand from the draft, 3.1: the chunk D950 is two-bit symbols, 1 2 1 1 1, so that
/// the deltas are 91, FFD5, 21, 8F and 0D, that is 145, -43, 33, 143 and 13. The reference time, 3F67, is 16,231 × 64 ms, and
/// that is 4,155,136 ticks.
#[test]
fn arrivals_of_a_block_of_chromium() {
    let block = [
        0x00, 0x1D, 0x00, 0x05, 0x00, 0x3F, 0x67, 0x02, 0xD9, 0x50, 0x91, 0xFF, 0xD5, 0x21, 0x8F,
        0x0D,
    ];
    let twcc = Twcc::parse(&block).expect("a block");
    assert!(twcc.arrivals().eq([
        (29, at(4_155_281, 1_038_820.25)),
        (30, at(4_155_238, 1_038_809.5)),
        (31, at(4_155_271, 1_038_817.75)),
        (32, at(4_155_414, 1_038_853.5)),
        (33, at(4_155_427, 1_038_856.75)),
    ]));
}

/// A block that GStreamer sent, with two packets lost: the chunks D560 and D640 are two-bit symbols, 1 1 1 1 2 0 0 and 1 1 2 1,
/// so that the deltas are CD, 19, 1B, 57, FFDF, 8D, 53, FFDB and 91, that is 205, 25, 27, 87, -33, 141, 83, -37 and 145. The
/// reference time is 0.
#[test]
fn arrivals_of_a_block_of_gstreamer() {
    let block = [
        0x00, 0x00, 0x00, 0x0B, 0x00, 0x00, 0x00, 0x00, 0xD5, 0x60, 0xD6, 0x40, 0xCD, 0x19, 0x1B,
        0x57, 0xFF, 0xDF, 0x8D, 0x53, 0xFF, 0xDB, 0x91, 0x00,
    ];
    let twcc = Twcc::parse(&block).expect("a block");
    assert!(twcc.arrivals().eq([
        (0, at(205, 51.25)),
        (1, at(230, 57.5)),
        (2, at(257, 64.25)),
        (3, at(344, 86.0)),
        (4, at(311, 77.75)),
        (5, TwccArrival::Missing),
        (6, TwccArrival::Missing),
        (7, at(452, 113.0)),
        (8, at(535, 133.75)),
        (9, at(498, 124.5)),
        (10, at(643, 160.75)),
    ]));
}

#[test]
fn cutting_ends_behind_an_error() {
    let list = [received(256); 7];
    let mut blocks = TwccBlocks::new(1, 0, 0, &list, Some(23));
    assert_eq!(blocks.next(), Some(Err(CutError::NothingFits { place: 0 })));
    assert_eq!(blocks.next(), None);

    let mut blocks = TwccBlocks::new(1, 0, 0, &list, Some(7));
    let refusal = Refusal::LimitTooSmall { limit: 7 };
    let error = CutError::Refused(refusal);
    assert_eq!(error.to_string(), refusal.to_string());
    assert_eq!(blocks.next(), Some(Err(error)));
    assert_eq!(blocks.next(), None);
}

#[test]
fn cutting_says_which_entries_are_left() {
    let mut list = vec![received(0); 16];
    list.extend([received(256); 7]);
    let blocks: Vec<_> = TwccBlocks::new(1, 0, 0, &list, Some(20)).collect();
    let (last, cut) = blocks.split_last().expect("a block");
    let taken = cut
        .iter()
        .map(|block| block.as_ref().expect("a block").taken);
    assert_eq!(last, &Err(CutError::NothingFits { place: taken.sum() }));
}

/// A list of runs and mixtures of all that can be written.
fn random_list(random: &mut Random, length: usize) -> Vec<TwccPacketStatus> {
    let mut list = Vec::new();
    while list.len() < length {
        let longest = [1, 20, 300, 9_000][random.below(4)];
        let run = 1 + random.below(longest);
        let kinds = [1, 2, 4][random.below(3)];
        let first = random.below(4);
        for _ in 0..run {
            list.push(match (first + random.below(kinds)) % 4 {
                0 => NotReceived,
                1 => received(random.below(256) as i16),
                2 => received(-1 - random.below(32_768) as i16),
                _ => received(256 + random.below(32_512) as i16),
            });
        }
    }
    list.truncate(length);
    list
}

#[test]
fn cut_lists_read_back_whole() {
    let mut random = Random(4);
    for case in 0..600 {
        let longest = [12, 60, 1_000, MAX_ENTRIES][case % 4];
        let length = if case % 40 == 3 {
            MAX_ENTRIES
        } else {
            random.below(longest + 1)
        };
        let list = random_list(&mut random, length);
        let widest = [1, 40, 2_000][random.below(3)];
        let limit = (random.below(4) > 0).then_some(24 + random.below(widest));
        let base = (65_536 - 200 + random.below(400)) as u16;
        let time = random.below(1 << 24) as u32;
        let feedback = random.below(256) as u8;

        let mut place = 0;
        let mut read_back = Vec::new();
        for (number, block) in TwccBlocks::new(base, time, feedback, &list, limit).enumerate() {
            let block = block.expect("a block");
            assert!(block.taken > 0);
            assert_eq!(block.bytes.len() % 4, 0);
            assert!(limit.is_none_or(|limit| block.bytes.len() <= limit));
            assert_eq!(block.base, base.wrapping_add(place as u16));
            assert_eq!(block.feedback, feedback.wrapping_add(number as u8));

            let twcc = Twcc::parse(&block.bytes).expect("what was written");
            assert_eq!(twcc.base_sequence_number(), block.base);
            assert_eq!(twcc.reference_time(), time);
            assert_eq!(twcc.feedback_packet_count(), block.feedback);
            assert_eq!(usize::from(twcc.packet_status_count()), block.taken);
            assert_eq!(twcc.statuses().len(), block.taken);
            place += block.taken;
            read_back.extend(twcc.packets());
        }
        let numbers = (0..list.len()).map(|place| base.wrapping_add(place as u16));
        assert!(read_back.into_iter().eq(numbers.zip(list)), "case {case}");
    }
}
