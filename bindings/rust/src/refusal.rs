//! The numbered refusals, each with its figures.

use std::error::Error;
use std::fmt;

/// Why a call gave no answer: one case for each number of the library's table, with its values as named fields.
///
/// After a refusal every lent byte is as it was. Where several refusals apply, a call gives the first in the order of its
/// own tests.
///
/// ```
/// use bogslipper::{Compound, Refusal};
///
/// let refusal = Compound::parse(&[0x80, 203, 0, 1]).unwrap_err();
/// assert_eq!(refusal, Refusal::Truncated { expected: 8, actual: 4 });
/// assert_eq!(refusal.to_string(), "bytes too short: 8 expected, 4 present");
/// ```
#[derive(Clone, Copy, Debug, PartialEq, Eq, Hash)]
#[non_exhaustive]
pub enum Refusal {
    /// 1: the bytes are too short.
    Truncated {
        /// The bytes expected, from the start of the data.
        expected: usize,
        /// The bytes present.
        actual: usize,
    },
    /// 2: the version is not 2.
    UnsupportedVersion {
        /// The version found.
        version: u8,
    },
    /// 3: the packet is of another type.
    PacketTypeMismatch {
        /// The type found.
        actual: u8,
        /// The type asked for.
        requested: u8,
    },
    /// 4: the bytes are too many.
    TooLarge {
        /// The bytes expected.
        expected: usize,
        /// The bytes present.
        actual: usize,
    },
    /// 5: padding on a packet that is not the last of its compound, or a padding count that does not fit.
    InvalidPadding,
    /// 8: the count is above 31.
    CountOutOfRange {
        /// The count given.
        count: u8,
    },
    /// 9: the padding to write is not a multiple of 4.
    UnevenPadding {
        /// The padding given.
        padding: u8,
    },
    /// 10: the reference time is above 16,777,215.
    ReferenceTimeTooLarge {
        /// The time given.
        time: u32,
    },
    /// 11: the body is not a multiple of 4, or the packet would be above 262,144 bytes.
    BodyLength {
        /// The body's length.
        length: usize,
    },
    /// 12: a status word is out of range.
    StatusOutOfRange {
        /// The first such place in the list, from 0.
        place: usize,
    },
    /// 13: the list is above 16,384 entries.
    ListTooLong {
        /// The list's length.
        length: usize,
    },
    /// 14: the size limit is below 8.
    LimitTooSmall {
        /// The limit given.
        limit: usize,
    },
    /// 15: the output lacks room, in bytes for a writer and in list places for a reader.
    OutputTooSmall {
        /// What the answer would fill.
        needed: usize,
        /// What was lent.
        present: usize,
    },
    /// 16: the NACK store is not of 8,192 bytes.
    StoreLength {
        /// The store's length.
        length: usize,
    },
    /// 17: the least length is outside 4 to 262,144.
    LeastLength {
        /// The least length given.
        least: usize,
    },
    /// A number that this crate does not know, or a value that its case cannot hold.
    Other {
        /// The number given.
        number: u64,
        /// The values that came with it.
        values: [u64; 8],
    },
}

impl Refusal {
    /// The refusal with this number and these values, as a call gives them and as a log may have kept them.
    ///
    /// ```
    /// use bogslipper::Refusal;
    ///
    /// let refusal = Refusal::new(2, [1, 0, 0, 0, 0, 0, 0, 0]);
    /// assert_eq!(refusal, Refusal::UnsupportedVersion { version: 1 });
    /// let refusal = Refusal::new(99, [7, 0, 0, 0, 0, 0, 0, 0]);
    /// assert_eq!(refusal, Refusal::Other { number: 99, values: [7, 0, 0, 0, 0, 0, 0, 0] });
    /// ```
    pub fn new(number: u64, values: [u64; 8]) -> Refusal {
        Refusal::known(number, values).unwrap_or(Refusal::Other { number, values })
    }

    fn known(number: u64, values: [u64; 8]) -> Option<Refusal> {
        let [first, second, ..] = values;
        let length = |value: u64| usize::try_from(value).ok();
        let byte = |value: u64| u8::try_from(value).ok();
        Some(match number {
            1 => Refusal::Truncated {
                expected: length(first)?,
                actual: length(second)?,
            },
            2 => Refusal::UnsupportedVersion {
                version: byte(first)?,
            },
            3 => Refusal::PacketTypeMismatch {
                actual: byte(first)?,
                requested: byte(second)?,
            },
            4 => Refusal::TooLarge {
                expected: length(first)?,
                actual: length(second)?,
            },
            5 => Refusal::InvalidPadding,
            8 => Refusal::CountOutOfRange {
                count: byte(first)?,
            },
            9 => Refusal::UnevenPadding {
                padding: byte(first)?,
            },
            10 => Refusal::ReferenceTimeTooLarge {
                time: u32::try_from(first).ok()?,
            },
            11 => Refusal::BodyLength {
                length: length(first)?,
            },
            12 => Refusal::StatusOutOfRange {
                place: length(first)?,
            },
            13 => Refusal::ListTooLong {
                length: length(first)?,
            },
            14 => Refusal::LimitTooSmall {
                limit: length(first)?,
            },
            15 => Refusal::OutputTooSmall {
                needed: length(first)?,
                present: length(second)?,
            },
            16 => Refusal::StoreLength {
                length: length(first)?,
            },
            17 => Refusal::LeastLength {
                least: length(first)?,
            },
            _ => return None,
        })
    }

    /// The refusal's number in the library's table.
    ///
    /// ```
    /// use bogslipper::Refusal;
    ///
    /// assert_eq!(Refusal::InvalidPadding.number(), 5);
    /// assert_eq!(Refusal::LimitTooSmall { limit: 7 }.number(), 14);
    /// ```
    pub fn number(&self) -> u64 {
        match *self {
            Refusal::Truncated { .. } => 1,
            Refusal::UnsupportedVersion { .. } => 2,
            Refusal::PacketTypeMismatch { .. } => 3,
            Refusal::TooLarge { .. } => 4,
            Refusal::InvalidPadding => 5,
            Refusal::CountOutOfRange { .. } => 8,
            Refusal::UnevenPadding { .. } => 9,
            Refusal::ReferenceTimeTooLarge { .. } => 10,
            Refusal::BodyLength { .. } => 11,
            Refusal::StatusOutOfRange { .. } => 12,
            Refusal::ListTooLong { .. } => 13,
            Refusal::LimitTooSmall { .. } => 14,
            Refusal::OutputTooSmall { .. } => 15,
            Refusal::StoreLength { .. } => 16,
            Refusal::LeastLength { .. } => 17,
            Refusal::Other { number, .. } => number,
        }
    }

    /// The refusal's values in the order of the library's table; the rest are 0.
    ///
    /// ```
    /// use bogslipper::Refusal;
    ///
    /// let refusal = Refusal::Truncated { expected: 8, actual: 4 };
    /// assert_eq!(refusal.values(), [8, 4, 0, 0, 0, 0, 0, 0]);
    /// ```
    pub fn values(&self) -> [u64; 8] {
        let (first, second) = match *self {
            Refusal::Truncated { expected, actual } => (expected as u64, actual as u64),
            Refusal::UnsupportedVersion { version } => (version.into(), 0),
            Refusal::PacketTypeMismatch { actual, requested } => (actual.into(), requested.into()),
            Refusal::TooLarge { expected, actual } => (expected as u64, actual as u64),
            Refusal::InvalidPadding => (0, 0),
            Refusal::CountOutOfRange { count } => (count.into(), 0),
            Refusal::UnevenPadding { padding } => (padding.into(), 0),
            Refusal::ReferenceTimeTooLarge { time } => (time.into(), 0),
            Refusal::BodyLength { length } => (length as u64, 0),
            Refusal::StatusOutOfRange { place } => (place as u64, 0),
            Refusal::ListTooLong { length } => (length as u64, 0),
            Refusal::LimitTooSmall { limit } => (limit as u64, 0),
            Refusal::OutputTooSmall { needed, present } => (needed as u64, present as u64),
            Refusal::StoreLength { length } => (length as u64, 0),
            Refusal::LeastLength { least } => (least as u64, 0),
            Refusal::Other { values, .. } => return values,
        };
        [first, second, 0, 0, 0, 0, 0, 0]
    }
}

impl fmt::Display for Refusal {
    fn fmt(&self, f: &mut fmt::Formatter<'_>) -> fmt::Result {
        match *self {
            Refusal::Truncated { expected, actual } => {
                write!(f, "bytes too short: {expected} expected, {actual} present")
            }
            Refusal::UnsupportedVersion { version } => {
                write!(f, "version {version} where 2 is expected")
            }
            Refusal::PacketTypeMismatch { actual, requested } => {
                write!(f, "packet type {actual} where {requested} is requested")
            }
            Refusal::TooLarge { expected, actual } => {
                write!(f, "bytes too many: {expected} expected, {actual} present")
            }
            Refusal::InvalidPadding => {
                write!(
                    f,
                    "padding before the last packet, or a padding count that does not fit"
                )
            }
            Refusal::CountOutOfRange { count } => write!(f, "count {count} is above 31"),
            Refusal::UnevenPadding { padding } => {
                write!(f, "padding of {padding} bytes is not a multiple of 4")
            }
            Refusal::ReferenceTimeTooLarge { time } => {
                write!(f, "reference time {time} is above 16777215")
            }
            Refusal::BodyLength { length } => write!(
                f,
                "body of {length} bytes is not a multiple of 4 or makes a packet above 262144 bytes"
            ),
            Refusal::StatusOutOfRange { place } => {
                write!(f, "status word at place {place} is out of range")
            }
            Refusal::ListTooLong { length } => {
                write!(f, "list of {length} entries is above 16384")
            }
            Refusal::LimitTooSmall { limit } => write!(f, "size limit {limit} is below 8"),
            Refusal::OutputTooSmall { needed, present } => {
                write!(f, "output lacks room: {needed} needed, {present} present")
            }
            Refusal::StoreLength { length } => {
                write!(f, "NACK store of {length} bytes is not 8192 bytes")
            }
            Refusal::LeastLength { least } => {
                write!(f, "least length {least} is outside 4 to 262144")
            }
            Refusal::Other { number, values } => {
                write!(f, "refusal number {number} with the values {values:?}")
            }
        }
    }
}

impl Error for Refusal {}
