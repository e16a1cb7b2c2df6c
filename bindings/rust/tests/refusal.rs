//! Every refusal by number, values and words.

use bogslipper::Refusal;
use std::error::Error;

/// The whole table: number, first two values, the case, its words.
fn table() -> Vec<(u64, [u64; 2], Refusal, &'static str)> {
    vec![
        (
            1,
            [8, 4],
            Refusal::Truncated {
                expected: 8,
                actual: 4,
            },
            "bytes too short: 8 expected, 4 present",
        ),
        (
            2,
            [1, 0],
            Refusal::UnsupportedVersion { version: 1 },
            "version 1 where 2 is expected",
        ),
        (
            3,
            [203, 205],
            Refusal::PacketTypeMismatch {
                actual: 203,
                requested: 205,
            },
            "packet type 203 where 205 is requested",
        ),
        (
            4,
            [4, 5],
            Refusal::TooLarge {
                expected: 4,
                actual: 5,
            },
            "bytes too many: 4 expected, 5 present",
        ),
        (
            5,
            [0, 0],
            Refusal::InvalidPadding,
            "padding before the last packet, or a padding count that does not fit",
        ),
        (
            8,
            [32, 0],
            Refusal::CountOutOfRange { count: 32 },
            "count 32 is above 31",
        ),
        (
            9,
            [3, 0],
            Refusal::UnevenPadding { padding: 3 },
            "padding of 3 bytes is not a multiple of 4",
        ),
        (
            10,
            [16_777_216, 0],
            Refusal::ReferenceTimeTooLarge { time: 16_777_216 },
            "reference time 16777216 is above 16777215",
        ),
        (
            11,
            [5, 0],
            Refusal::BodyLength { length: 5 },
            "body of 5 bytes is not a multiple of 4 or makes a packet above 262144 bytes",
        ),
        (
            12,
            [7, 0],
            Refusal::StatusOutOfRange { place: 7 },
            "status word at place 7 is out of range",
        ),
        (
            13,
            [16_385, 0],
            Refusal::ListTooLong { length: 16_385 },
            "list of 16385 entries is above 16384",
        ),
        (
            14,
            [7, 0],
            Refusal::LimitTooSmall { limit: 7 },
            "size limit 7 is below 8",
        ),
        (
            15,
            [12, 11],
            Refusal::OutputTooSmall {
                needed: 12,
                present: 11,
            },
            "output lacks room: 12 needed, 11 present",
        ),
        (
            16,
            [100, 0],
            Refusal::StoreLength { length: 100 },
            "NACK store of 100 bytes is not 8192 bytes",
        ),
        (
            17,
            [3, 0],
            Refusal::LeastLength { least: 3 },
            "least length 3 is outside 4 to 262144",
        ),
    ]
}

#[test]
fn number_and_values_make_the_case_and_come_back() {
    for (number, [first, second], refusal, _) in table() {
        let values = [first, second, 0, 0, 0, 0, 0, 0];
        assert_eq!(Refusal::new(number, values), refusal);
        assert_eq!((refusal.number(), refusal.values()), (number, values));
    }
}

#[test]
fn every_refusal_has_its_words() {
    for (_, _, refusal, words) in table() {
        assert_eq!(refusal.to_string(), words);
        let error: Box<dyn Error> = Box::new(refusal);
        assert_eq!(error.to_string(), words);
    }
}

#[test]
fn an_unknown_number_is_kept_whole() {
    for number in [0, 6, 7, 18, 99, u64::MAX] {
        let values = [1, 2, 3, 4, 5, 6, 7, u64::MAX];
        let refusal = Refusal::new(number, values);
        assert_eq!(refusal, Refusal::Other { number, values });
        assert_eq!((refusal.number(), refusal.values()), (number, values));
    }
    assert_eq!(
        Refusal::new(99, [1, 2, 0, 0, 0, 0, 0, 0]).to_string(),
        "refusal number 99 with the values [1, 2, 0, 0, 0, 0, 0, 0]"
    );
}

#[test]
fn a_value_that_no_case_holds_is_kept_whole() {
    let values = [256, 0, 0, 0, 0, 0, 0, 0];
    assert_eq!(
        Refusal::new(2, values),
        Refusal::Other { number: 2, values }
    );
}

#[test]
fn the_largest_figure_passes() {
    assert_eq!(
        Refusal::new(15, [u64::MAX, 0, 0, 0, 0, 0, 0, 0]),
        Refusal::OutputTooSmall {
            needed: usize::MAX,
            present: 0
        }
    );
}
