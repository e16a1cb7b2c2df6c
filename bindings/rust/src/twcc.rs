//! Transport-wide congestion control feedback (draft-holmer-rmcat-transport-wide-cc-extensions-01).
//!
//! [`Twcc`], [`TwccBuilder`] and [`TwccBlocks`] own their memory. [`read`] and [`write()`] work on lent slices and allocate
//! nothing; an entry is then a status word: a delta, or one of [`NOT_RECEIVED`], [`TRUNCATED`] and [`RESERVED`].
//! [`Twcc::arrivals`] and [`arrivals`] say when packets arrived.

use std::error::Error;
use std::fmt;
use std::iter::FusedIterator;

use crate::ffi;
use crate::said::needed;
use crate::Refusal;

/// The largest reference time, in units of 64 ms.
///
/// ```
/// use bogslipper::twcc::arrivals;
/// use bogslipper::TWCC_MAX_REFERENCE_TIME;
///
/// assert!(arrivals(TWCC_MAX_REFERENCE_TIME, [0]).is_ok());
/// assert!(arrivals(TWCC_MAX_REFERENCE_TIME + 1, [0]).is_err());
/// ```
pub const TWCC_MAX_REFERENCE_TIME: u32 = (1 << 24) - 1;

/// The most entries that a list to write may have.
///
/// ```
/// use bogslipper::twcc::{self, MAX_ENTRIES, NOT_RECEIVED};
/// use bogslipper::Refusal;
///
/// let list = [NOT_RECEIVED; MAX_ENTRIES + 1];
/// let refusal = Refusal::ListTooLong { length: 16_385 };
/// assert_eq!(twcc::write(1, 0, 0, &list, None, &mut [0; 64]), Err(refusal));
/// ```
pub const MAX_ENTRIES: usize = 16_384;

/// The status word of a packet that was not received.
///
/// ```
/// use bogslipper::twcc::NOT_RECEIVED;
/// use bogslipper::TwccPacketStatus;
///
/// assert_eq!(TwccPacketStatus::from_word(NOT_RECEIVED), Some(TwccPacketStatus::NotReceived));
/// ```
pub const NOT_RECEIVED: i32 = 32_768;

/// The status word of an entry whose delta is not in the block; reading gives it, writing refuses it.
///
/// ```
/// use bogslipper::twcc::TRUNCATED;
/// use bogslipper::TwccPacketStatus;
///
/// assert_eq!(TwccPacketStatus::from_word(TRUNCATED), Some(TwccPacketStatus::Truncated));
/// ```
pub const TRUNCATED: i32 = 32_769;

/// The status word of an entry with the reserved symbol; reading gives it, writing refuses it.
///
/// ```
/// use bogslipper::twcc::RESERVED;
/// use bogslipper::TwccPacketStatus;
///
/// assert_eq!(TwccPacketStatus::from_word(RESERVED), Some(TwccPacketStatus::Reserved));
/// ```
pub const RESERVED: i32 = 32_770;

/// The status of one packet.
///
/// ```
/// use bogslipper::{Refusal, Twcc, TwccPacketStatus};
///
/// let twcc = Twcc::parse(&[0, 5, 0, 2, 0, 0, 0, 0, 0xF4, 0x00, 9])?;
/// assert_eq!(twcc.statuses(), [TwccPacketStatus::Reserved, TwccPacketStatus::Received { delta: 9 }]);
/// # Ok::<(), Refusal>(())
/// ```
#[derive(Clone, Copy, Debug, PartialEq, Eq, Hash)]
pub enum TwccPacketStatus {
    /// The packet was not received.
    NotReceived,
    /// The packet was received.
    Received {
        /// The time to its arrival from that of the received packet before it in the block, of the first from the reference
        /// time, in ticks of 250 µs. [`Twcc::arrivals`] sums them up.
        delta: i16,
    },
    /// The packet was received, and the block ends before its delta. Reading gives it, writing refuses it with 12.
    Truncated,
    /// The symbol that the draft reserves. Reading gives it, writing refuses it with 12.
    Reserved,
}

impl TwccPacketStatus {
    /// The status that a status word stands for; words outside −32,768 to 32,770 stand for none.
    ///
    /// ```
    /// use bogslipper::TwccPacketStatus;
    ///
    /// assert_eq!(TwccPacketStatus::from_word(-1), Some(TwccPacketStatus::Received { delta: -1 }));
    /// assert_eq!(TwccPacketStatus::from_word(32_771), None);
    /// ```
    pub fn from_word(word: i32) -> Option<TwccPacketStatus> {
        match word {
            NOT_RECEIVED => Some(TwccPacketStatus::NotReceived),
            TRUNCATED => Some(TwccPacketStatus::Truncated),
            RESERVED => Some(TwccPacketStatus::Reserved),
            _ => {
                let delta = i16::try_from(word).ok()?;
                Some(TwccPacketStatus::Received { delta })
            }
        }
    }

    /// The status word.
    ///
    /// ```
    /// use bogslipper::TwccPacketStatus;
    ///
    /// assert_eq!(TwccPacketStatus::NotReceived.to_word(), 32_768);
    /// assert_eq!(TwccPacketStatus::Received { delta: -1 }.to_word(), -1);
    /// ```
    pub fn to_word(self) -> i32 {
        match self {
            TwccPacketStatus::NotReceived => NOT_RECEIVED,
            TwccPacketStatus::Received { delta } => delta.into(),
            TwccPacketStatus::Truncated => TRUNCATED,
            TwccPacketStatus::Reserved => RESERVED,
        }
    }
}

/// What [`read`] answers: the block's header, and how many entries it listed.
///
/// ```
/// use bogslipper::{twcc, Refusal};
///
/// let header = twcc::read(&[0, 5, 0, 0, 0, 1, 0, 7], &mut [])?;
/// assert_eq!((header.base, header.reference_time, header.feedback), (5, 256, 7));
/// # Ok::<(), Refusal>(())
/// ```
#[derive(Clone, Copy, Debug, PartialEq, Eq)]
pub struct TwccHeader {
    /// The number of the first packet; place k of the list is packet base + k modulo 65,536.
    pub base: u16,
    /// The status count that the block states.
    pub status_count: u16,
    /// The reference time, in units of 64 ms.
    pub reference_time: u32,
    /// The feedback packet count.
    pub feedback: u8,
    /// The entries listed: the status count, or fewer where the chunks run out.
    pub listed: usize,
}

/// Lists the status words of a block.
///
/// ```
/// use bogslipper::twcc::{self, NOT_RECEIVED};
/// use bogslipper::Refusal;
///
/// let mut list = [0; 16];
/// let header = twcc::read(&[0, 1, 0, 2, 0, 0, 0, 0, 0xC4, 0x00, 4, 0], &mut list)?;
/// assert_eq!(list[..header.listed], [NOT_RECEIVED, 4]);
/// # Ok::<(), Refusal>(())
/// ```
///
/// # Refusals
///
/// In this order: 1, fewer than eight bytes; 15, in list places.
pub fn read(block: &[u8], list: &mut [i32]) -> Result<TwccHeader, Refusal> {
    // SAFETY: the call reads the block and writes the list, which do not overlap, and keeps nothing of either.
    let said =
        unsafe { ffi::bog_twcc_read(block.as_ptr(), block.len(), list.as_mut_ptr(), list.len()) };
    let [base, status_count, reference_time, feedback, listed, ..] = said.result()?;
    Ok(TwccHeader {
        base: base as u16,
        status_count: status_count as u16,
        reference_time: reference_time as u32,
        feedback: feedback as u8,
        listed: listed as usize,
    })
}

/// What a writer of one block answers.
///
/// ```
/// use bogslipper::twcc::{self, TwccWritten};
///
/// let written = twcc::write(1, 0, 0, &[255], None, &mut [0; 12]);
/// assert_eq!(written, Ok(TwccWritten { bytes: 12, taken: 1 }));
/// ```
#[derive(Clone, Copy, Debug, PartialEq, Eq)]
pub struct TwccWritten {
    /// The bytes written, a multiple of 4.
    pub bytes: usize,
    /// The entries taken from the front of the list.
    pub taken: usize,
}

/// Writes one block from the front of a list of status words, of at most `limit` bytes where there is a limit.
///
/// Go on with the entries not taken. A limit of at least 24 takes one or more of a list that is not empty; limits from 8 to
/// 23 may take none. Padding bytes are written as 0.
///
/// ```
/// use bogslipper::{twcc, Refusal};
///
/// let mut out = [0x55; 16];
/// let written = twcc::write(1, 0, 0, &[0; 9], Some(12), &mut out)?;
/// assert_eq!(written.taken, 1);
/// assert_eq!(out[..written.bytes], [0, 1, 0, 1, 0, 0, 0, 0, 0x20, 0x01, 0, 0]);
/// # Ok::<(), Refusal>(())
/// ```
///
/// # Refusals
///
/// In this order: 10, reference time above 16,777,215; 13, list above 16,384 entries; 12, a word outside −32,768 to 32,768
/// anywhere in the list; 14, limit below 8; 15, in bytes.
pub fn write(
    base: u16,
    reference_time: u32,
    feedback: u8,
    list: &[i32],
    limit: Option<usize>,
    out: &mut [u8],
) -> Result<TwccWritten, Refusal> {
    // SAFETY: the call reads the list and writes the buffer, which do not overlap, and keeps nothing of either.
    let said = unsafe {
        ffi::bog_twcc_write(
            base,
            reference_time,
            feedback,
            list.as_ptr(),
            list.len(),
            limit.is_some(),
            limit.unwrap_or(0) as u64,
            out.as_mut_ptr(),
            out.len(),
        )
    };
    let [bytes, taken, ..] = said.result()?;
    Ok(TwccWritten {
        bytes: bytes as usize,
        taken: taken as usize,
    })
}

/// When a packet arrived, as far as its block says.
///
/// ```
/// use bogslipper::{Refusal, Twcc, TwccArrival};
///
/// let twcc = Twcc::parse(&[0, 5, 0, 2, 0, 0, 1, 0, 0xD4, 0x00, 4, 2])?;
/// let arrivals: Vec<(u16, TwccArrival)> = twcc.arrivals().collect();
/// assert_eq!(arrivals[1], (6, TwccArrival::Arrived { ticks: 262, milliseconds: 65.5 }));
/// # Ok::<(), Refusal>(())
/// ```
#[derive(Clone, Copy, Debug, PartialEq)]
pub enum TwccArrival {
    /// The packet was not received.
    Missing,
    /// The entry can't be read: the block ends before its delta, its symbol is the reserved one, or its word is no status.
    Unreadable,
    /// The packet was received, but behind an entry that can't be read, so that nobody can say when.
    Unplaced,
    /// The packet arrived.
    Arrived {
        /// When, in ticks of 250 µs: the reference time × 256 plus the sum of all deltas up to its own. For sums and comparisons.
        ticks: i64,
        /// The same in milliseconds: ticks / 4, exactly. For a display.
        milliseconds: f64,
    },
}

impl TwccArrival {
    /// When the packet arrived, in ticks of 250 µs; `None` where nobody can say, or where it did not.
    ///
    /// ```
    /// use bogslipper::twcc::{arrivals, NOT_RECEIVED};
    /// use bogslipper::{Refusal, TwccArrival};
    ///
    /// assert!(arrivals(1, [4, NOT_RECEIVED])?.map(TwccArrival::ticks).eq([Some(260), None]));
    /// # Ok::<(), Refusal>(())
    /// ```
    pub fn ticks(self) -> Option<i64> {
        match self {
            TwccArrival::Arrived { ticks, .. } => Some(ticks),
            _ => None,
        }
    }

    /// When the packet arrived, in milliseconds; `None` where nobody can say, or where it did not.
    ///
    /// ```
    /// use bogslipper::twcc::{arrivals, RESERVED};
    /// use bogslipper::{Refusal, TwccArrival};
    ///
    /// let milliseconds = arrivals(1, [4, RESERVED, 4])?.map(TwccArrival::milliseconds);
    /// assert!(milliseconds.eq([Some(65.0), None, None]));
    /// # Ok::<(), Refusal>(())
    /// ```
    pub fn milliseconds(self) -> Option<f64> {
        match self {
            TwccArrival::Arrived { milliseconds, .. } => Some(milliseconds),
            _ => None,
        }
    }
}

/// The arrivals of a block's status words, one for each; [`arrivals`] makes it.
///
/// ```
/// use bogslipper::twcc::{arrivals, NOT_RECEIVED, TRUNCATED};
/// use bogslipper::{Refusal, TwccArrival};
///
/// let mut arrivals = arrivals(0, [NOT_RECEIVED, TRUNCATED, 4])?;
/// assert_eq!(arrivals.next(), Some(TwccArrival::Missing));
/// assert_eq!(arrivals.next(), Some(TwccArrival::Unreadable));
/// assert_eq!(arrivals.next(), Some(TwccArrival::Unplaced));
/// assert_eq!(arrivals.next(), None);
/// # Ok::<(), Refusal>(())
/// ```
#[derive(Clone, Debug)]
#[must_use = "an iterator gives nothing until it is asked"]
pub struct TwccArrivals<I> {
    words: I,
    placed: bool,
    ticks: i64,
}

impl<I: Iterator<Item = i32>> Iterator for TwccArrivals<I> {
    type Item = TwccArrival;

    fn next(&mut self) -> Option<TwccArrival> {
        let word = self.words.next()?;
        // SAFETY: the call is lent no memory.
        let said = unsafe { ffi::bog_arrivals_next(self.placed, self.ticks, word) };
        let [case, bits, placed, ticks, ..] = said.values;
        self.placed = placed == 1;
        self.ticks = ticks as i64;
        Some(match case {
            0 => TwccArrival::Missing,
            1 => TwccArrival::Unreadable,
            2 => TwccArrival::Unplaced,
            _ => TwccArrival::Arrived {
                ticks: self.ticks,
                milliseconds: f64::from_bits(bits),
            },
        })
    }

    fn size_hint(&self) -> (usize, Option<usize>) {
        self.words.size_hint()
    }
}

impl<I: ExactSizeIterator<Item = i32>> ExactSizeIterator for TwccArrivals<I> {}

impl<I: FusedIterator<Item = i32>> FusedIterator for TwccArrivals<I> {}

/// The arrivals of one block: its reference time and its status words, as [`read`] lists them.
///
/// The first received packet's delta counts from the reference time, each later one's from the received packet before it.
/// Begin again with each block.
///
/// ```
/// use bogslipper::twcc::arrivals;
/// use bogslipper::{Refusal, TwccArrival};
///
/// let arrived = |ticks, milliseconds| TwccArrival::Arrived { ticks, milliseconds };
/// assert!(arrivals(2, [100, -1])?.eq([arrived(612, 153.0), arrived(611, 152.75)]));
/// # Ok::<(), Refusal>(())
/// ```
///
/// # Refusals
///
/// 10, reference time above 16,777,215.
pub fn arrivals<W>(reference_time: u32, words: W) -> Result<TwccArrivals<W::IntoIter>, Refusal>
where
    W: IntoIterator<Item = i32>,
{
    // SAFETY: the call is lent no memory.
    let [_, ticks, ..] = unsafe { ffi::bog_arrivals(reference_time) }.result()?;
    Ok(TwccArrivals {
        words: words.into_iter(),
        placed: true,
        ticks: ticks as i64,
    })
}

/// A block that was read.
///
/// ```
/// use bogslipper::{Refusal, Twcc, TwccPacketStatus};
///
/// let twcc = Twcc::parse(&[0xFF, 0xFF, 0, 2, 0, 0, 1, 0, 0xC4, 0x00, 4, 0])?;
/// assert!(twcc.packets().eq([
///     (65_535, TwccPacketStatus::NotReceived),
///     (0, TwccPacketStatus::Received { delta: 4 }),
/// ]));
/// # Ok::<(), Refusal>(())
/// ```
#[derive(Clone, Debug, PartialEq, Eq)]
pub struct Twcc {
    header: TwccHeader,
    statuses: Vec<TwccPacketStatus>,
}

impl Twcc {
    /// The format, a feedback packet's count, that says TWCC.
    ///
    /// ```
    /// assert_eq!(bogslipper::Twcc::FCI_FORMAT, 15);
    /// ```
    pub const FCI_FORMAT: u8 = 15;

    /// Reads a block into a list of its own. An entry that cannot be read is listed as such, and reading goes on.
    ///
    /// ```
    /// use bogslipper::{Refusal, Twcc};
    ///
    /// let refusal = Refusal::Truncated { expected: 8, actual: 7 };
    /// assert_eq!(Twcc::parse(&[0; 7]), Err(refusal));
    /// ```
    ///
    /// # Refusals
    ///
    /// 1, fewer than eight bytes.
    pub fn parse(block: &[u8]) -> Result<Twcc, Refusal> {
        let listed = needed(read(block, &mut []).map(|header| header.listed))?;
        let mut words = vec![0; listed];
        let header = read(block, &mut words)?;
        let status = |word| TwccPacketStatus::from_word(word).expect("reading lists no other word");
        Ok(Twcc {
            header,
            statuses: words.into_iter().map(status).collect(),
        })
    }

    /// A writer of one block; see [`TwccBuilder::new`].
    ///
    /// ```
    /// use bogslipper::Twcc;
    ///
    /// assert_eq!(Twcc::builder(1, 0, 0, &[], None).calculate_size(), Ok(8));
    /// ```
    pub fn builder(
        base_seq: u16,
        reference_time: u32,
        feedback_packet_count: u8,
        status_list: &[TwccPacketStatus],
        max_size: Option<usize>,
    ) -> TwccBuilder {
        TwccBuilder::new(
            base_seq,
            reference_time,
            feedback_packet_count,
            status_list,
            max_size,
        )
    }

    /// The number of the first packet.
    ///
    /// ```
    /// # use bogslipper::{Refusal, Twcc};
    /// assert_eq!(Twcc::parse(&[0x12, 0x34, 0, 0, 0, 0, 0, 0])?.base_sequence_number(), 0x1234);
    /// # Ok::<(), Refusal>(())
    /// ```
    pub fn base_sequence_number(&self) -> u16 {
        self.header.base
    }

    /// The status count that the block states. Where its chunks run out, fewer entries are listed.
    ///
    /// ```
    /// # use bogslipper::{Refusal, Twcc};
    /// let twcc = Twcc::parse(&[0, 0, 0, 3, 0, 0, 0, 0])?;
    /// assert_eq!((twcc.packet_status_count(), twcc.statuses().len()), (3, 0));
    /// # Ok::<(), Refusal>(())
    /// ```
    pub fn packet_status_count(&self) -> u16 {
        self.header.status_count
    }

    /// The reference time, in units of 64 ms.
    ///
    /// ```
    /// # use bogslipper::{Refusal, Twcc};
    /// assert_eq!(Twcc::parse(&[0, 0, 0, 0, 1, 2, 3, 0])?.reference_time(), 0x010203);
    /// # Ok::<(), Refusal>(())
    /// ```
    pub fn reference_time(&self) -> u32 {
        self.header.reference_time
    }

    /// The feedback packet count, which tells the reader of lost feedback.
    ///
    /// ```
    /// # use bogslipper::{Refusal, Twcc};
    /// assert_eq!(Twcc::parse(&[0, 0, 0, 0, 0, 0, 0, 9])?.feedback_packet_count(), 9);
    /// # Ok::<(), Refusal>(())
    /// ```
    pub fn feedback_packet_count(&self) -> u8 {
        self.header.feedback
    }

    /// The statuses in their order, the first that of the packet [`Twcc::base_sequence_number`].
    ///
    /// ```
    /// use bogslipper::{Refusal, Twcc, TwccPacketStatus};
    ///
    /// let twcc = Twcc::parse(&[0, 5, 0, 2, 0, 0, 0, 0, 0xE4, 0x00, 0x7F])?;
    /// assert_eq!(twcc.statuses(), [TwccPacketStatus::Truncated; 2]);
    /// # Ok::<(), Refusal>(())
    /// ```
    pub fn statuses(&self) -> &[TwccPacketStatus] {
        &self.statuses
    }

    /// The packets' numbers, which go on at 0 behind 65,535, each with its status.
    ///
    /// ```
    /// use bogslipper::{Refusal, Twcc, TwccPacketStatus};
    ///
    /// let twcc = Twcc::parse(&[0, 5, 0, 1, 0, 0, 0, 0, 0x20, 0x00, 0x20, 0x01, 9])?;
    /// assert!(twcc.packets().eq([(5, TwccPacketStatus::Received { delta: 9 })]));
    /// # Ok::<(), Refusal>(())
    /// ```
    pub fn packets(&self) -> impl Iterator<Item = (u16, TwccPacketStatus)> + '_ {
        self.numbered(self.statuses.iter().copied())
    }

    /// The packets' numbers, each with its arrival: the reference time plus the sum of all deltas up to its own.
    ///
    /// ```
    /// use bogslipper::{Refusal, Twcc, TwccArrival};
    ///
    /// let twcc = Twcc::parse(&[0, 5, 0, 3, 0, 0, 1, 0, 0xD1, 0x00, 4, 2])?;
    /// assert!(twcc.arrivals().eq([
    ///     (5, TwccArrival::Arrived { ticks: 260, milliseconds: 65.0 }),
    ///     (6, TwccArrival::Missing),
    ///     (7, TwccArrival::Arrived { ticks: 262, milliseconds: 65.5 }),
    /// ]));
    /// # Ok::<(), Refusal>(())
    /// ```
    pub fn arrivals(&self) -> impl Iterator<Item = (u16, TwccArrival)> + '_ {
        let words = self.statuses.iter().map(|status| status.to_word());
        self.numbered(arrivals(self.header.reference_time, words).expect("a block's time fits"))
    }

    /// What there is of each packet, behind the packet's number.
    fn numbered<'a, T: 'a>(
        &'a self,
        each: impl Iterator<Item = T> + 'a,
    ) -> impl Iterator<Item = (u16, T)> + 'a {
        let number = |(place, item)| (self.header.base.wrapping_add(place as u16), item);
        each.enumerate().map(number)
    }
}

/// A writer of one block.
///
/// ```
/// use bogslipper::{Refusal, TwccBuilder, TwccPacketStatus};
///
/// let block = TwccBuilder::new(1, 0, 0, &[TwccPacketStatus::Received { delta: 255 }], None);
/// let mut buf = vec![0; block.calculate_size()?];
/// block.write_into(&mut buf)?;
/// assert_eq!(buf, [0, 1, 0, 1, 0, 0, 0, 0, 0xD0, 0x00, 0xFF, 0]);
/// # Ok::<(), Refusal>(())
/// ```
#[derive(Clone, Debug)]
#[must_use = "a builder writes nothing until it is told where"]
pub struct TwccBuilder {
    base: u16,
    reference_time: u32,
    feedback: u8,
    words: Vec<i32>,
    limit: Option<usize>,
}

impl TwccBuilder {
    /// A block from the front of a status list, of at most `max_size` bytes where that is given.
    ///
    /// ```
    /// use bogslipper::{Refusal, TwccBuilder, TwccPacketStatus};
    ///
    /// let list = [TwccPacketStatus::Received { delta: 256 }; 8];
    /// let written = TwccBuilder::new(1, 0, 0, &list, Some(24)).write_into(&mut [0; 24])?;
    /// assert_eq!(written.taken, 6);
    /// # Ok::<(), Refusal>(())
    /// ```
    pub fn new(
        base_seq: u16,
        reference_time: u32,
        feedback_packet_count: u8,
        status_list: &[TwccPacketStatus],
        max_size: Option<usize>,
    ) -> TwccBuilder {
        TwccBuilder {
            base: base_seq,
            reference_time,
            feedback: feedback_packet_count,
            words: words(status_list),
            limit: max_size,
        }
    }

    /// The bytes that the block takes.
    ///
    /// ```
    /// use bogslipper::{TwccBuilder, TwccPacketStatus};
    ///
    /// let block = TwccBuilder::new(1, 0, 0, &[TwccPacketStatus::NotReceived; 8], None);
    /// assert_eq!(block.calculate_size(), Ok(12));
    /// ```
    ///
    /// # Refusals
    ///
    /// As [`write()`], without 15.
    pub fn calculate_size(&self) -> Result<usize, Refusal> {
        needed(self.write_into(&mut []).map(|written| written.bytes))
    }

    /// Writes the block at the front of a buffer; the answer says how many of the entries it took.
    ///
    /// ```
    /// use bogslipper::{Refusal, TwccBuilder, TwccPacketStatus};
    ///
    /// let block = TwccBuilder::new(1, 0, 0, &[TwccPacketStatus::Reserved], None);
    /// assert_eq!(block.write_into(&mut [0; 64]), Err(Refusal::StatusOutOfRange { place: 0 }));
    /// ```
    ///
    /// # Refusals
    ///
    /// As [`write()`].
    pub fn write_into(&self, buf: &mut [u8]) -> Result<TwccWritten, Refusal> {
        write(
            self.base,
            self.reference_time,
            self.feedback,
            &self.words,
            self.limit,
            buf,
        )
    }
}

fn words(statuses: &[TwccPacketStatus]) -> Vec<i32> {
    statuses.iter().map(|status| status.to_word()).collect()
}

/// Cuts a status list into blocks, each of at most a limit; an iterator over the blocks.
///
/// All blocks have the same reference time. The base moves on by the entries taken, modulo 65,536, and the feedback count by
/// one for each block, modulo 256. Read one behind the other the blocks give the list again. An empty list makes no block;
/// behind an `Err` there is none.
///
/// ```
/// use bogslipper::twcc::CutError;
/// use bogslipper::{Twcc, TwccBlocks, TwccPacketStatus};
///
/// let list = [TwccPacketStatus::Received { delta: 256 }; 8];
/// let mut read_back = Vec::new();
/// for block in TwccBlocks::new(65_535, 0, 0, &list, Some(24)) {
///     let block = block?;
///     assert!(block.bytes.len() <= 24);
///     read_back.extend_from_slice(Twcc::parse(&block.bytes)?.statuses());
/// }
/// assert_eq!(read_back, list);
/// # Ok::<(), CutError>(())
/// ```
#[derive(Clone, Debug)]
pub struct TwccBlocks {
    base: u16,
    reference_time: u32,
    feedback: u8,
    words: Vec<i32>,
    limit: Option<usize>,
    place: usize,
}

/// One block of [`TwccBlocks`].
///
/// ```
/// use bogslipper::{TwccBlocks, TwccPacketStatus};
///
/// let mut blocks = TwccBlocks::new(1, 0, 9, &[TwccPacketStatus::NotReceived; 8], None);
/// let block = blocks.next().unwrap().unwrap();
/// assert_eq!((block.base, block.feedback, block.taken), (1, 9, 8));
/// assert_eq!(block.bytes, [0, 1, 0, 8, 0, 0, 0, 9, 0x00, 0x08, 0, 0]);
/// assert!(blocks.next().is_none());
/// ```
#[derive(Clone, Debug, PartialEq, Eq)]
pub struct TwccBlock {
    /// The number of the block's first packet.
    pub base: u16,
    /// The block's feedback packet count.
    pub feedback: u8,
    /// The entries taken.
    pub taken: usize,
    /// The block.
    pub bytes: Vec<u8>,
}

/// Why a list could not be cut to its end.
///
/// ```
/// use bogslipper::twcc::CutError;
/// use bogslipper::{TwccBlocks, TwccPacketStatus};
///
/// let list = [TwccPacketStatus::Received { delta: 256 }; 7];
/// let error = TwccBlocks::new(1, 0, 0, &list, Some(23)).next().unwrap().unwrap_err();
/// assert_eq!(error, CutError::NothingFits { place: 0 });
/// assert_eq!(error.to_string(), "the size limit is too small for the chunk at place 0");
/// ```
#[derive(Clone, Copy, Debug, PartialEq, Eq)]
pub enum CutError {
    /// The list, the reference time or the limit was refused.
    Refused(Refusal),
    /// A block within the limit takes nothing of what is left. Limits of at least 24 never come to this.
    NothingFits {
        /// The first entry that is in no block, from 0.
        place: usize,
    },
}

impl fmt::Display for CutError {
    fn fmt(&self, f: &mut fmt::Formatter<'_>) -> fmt::Result {
        match self {
            CutError::Refused(refusal) => refusal.fmt(f),
            CutError::NothingFits { place } => {
                write!(
                    f,
                    "the size limit is too small for the chunk at place {place}"
                )
            }
        }
    }
}

impl Error for CutError {}

impl From<Refusal> for CutError {
    fn from(refusal: Refusal) -> CutError {
        CutError::Refused(refusal)
    }
}

impl TwccBlocks {
    /// The blocks of a status list, from the number of its first packet and the feedback count of the first block.
    ///
    /// ```
    /// use bogslipper::TwccBlocks;
    ///
    /// assert!(TwccBlocks::new(1, 0, 0, &[], Some(1_200)).next().is_none());
    /// ```
    pub fn new(
        base_seq: u16,
        reference_time: u32,
        feedback_packet_count: u8,
        status_list: &[TwccPacketStatus],
        max_size: Option<usize>,
    ) -> TwccBlocks {
        TwccBlocks {
            base: base_seq,
            reference_time,
            feedback: feedback_packet_count,
            words: words(status_list),
            limit: max_size,
            place: 0,
        }
    }

    /// The block of what is left.
    fn block(&self) -> Result<TwccBlock, CutError> {
        let write = |out: &mut [u8]| {
            let left = &self.words[self.place..];
            write(
                self.base,
                self.reference_time,
                self.feedback,
                left,
                self.limit,
                out,
            )
        };
        let mut bytes = vec![0; needed(write(&mut []).map(|written| written.bytes))?];
        let taken = write(&mut bytes)?.taken;
        if taken == 0 {
            return Err(CutError::NothingFits { place: self.place });
        }
        Ok(TwccBlock {
            base: self.base,
            feedback: self.feedback,
            taken,
            bytes,
        })
    }
}

impl Iterator for TwccBlocks {
    type Item = Result<TwccBlock, CutError>;

    fn next(&mut self) -> Option<Self::Item> {
        if self.place == self.words.len() {
            return None;
        }
        let block = self.block();
        match &block {
            Ok(block) => {
                self.place += block.taken;
                self.base = self.base.wrapping_add(block.taken as u16);
                self.feedback = self.feedback.wrapping_add(1);
            }
            Err(_) => self.place = self.words.len(),
        }
        Some(block)
    }
}

impl FusedIterator for TwccBlocks {}
