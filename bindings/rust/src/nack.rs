//! Generic NACK feedback (RFC 4585, section 6.2.1).
//!
//! [`Nack`] and [`NackBuilder`] own their memory. [`read`], [`add`] and [`write()`] work on lent slices and allocate nothing;
//! a set of numbers is then a store of [`STORE_LENGTH`] bytes, zeroed for the empty set, with number n at byte n / 8, bit
//! n mod 8, bit 0 worth 1.

use std::fmt;

use crate::ffi;
use crate::said::needed;
use crate::Refusal;

/// The length of a store: one bit for each 16-bit number.
///
/// ```
/// let mut store = [0; bogslipper::nack::STORE_LENGTH];
/// assert_eq!(bogslipper::nack::add(&mut store, 65_535), Ok(()));
/// assert_eq!(store[8_191], 0x80);
/// ```
pub const STORE_LENGTH: usize = 8_192;

/// Lists the numbers of NACK entries in their order, repeats included, and answers how many there are.
///
/// An entry is a number and a mask; its numbers are the number itself and those up to 16 above it, modulo 65,536, whose
/// mask bits are set. One to three trailing bytes are ignored.
///
/// ```
/// use bogslipper::{nack, Refusal};
///
/// let mut list = [0; 8];
/// let listed = nack::read(&[0x00, 0x0A, 0x00, 0x03, 0xFF], &mut list)?;
/// assert_eq!(list[..listed], [10, 11, 12]);
/// # Ok::<(), Refusal>(())
/// ```
///
/// # Refusals
///
/// 15, in list places.
pub fn read(data: &[u8], list: &mut [u16]) -> Result<usize, Refusal> {
    // SAFETY: the call reads the data and writes the list, which do not overlap, and keeps nothing of either.
    let said =
        unsafe { ffi::bog_nack_read(data.as_ptr(), data.len(), list.as_mut_ptr(), list.len()) };
    let [listed, ..] = said.result()?;
    Ok(listed as usize)
}

/// Adds a number to a store.
///
/// ```
/// use bogslipper::{nack, Refusal};
///
/// let mut store = vec![0; nack::STORE_LENGTH];
/// nack::add(&mut store, 9)?;
/// assert_eq!(store[1], 2);
/// assert_eq!(nack::add(&mut [0; 100], 9), Err(Refusal::StoreLength { length: 100 }));
/// # Ok::<(), Refusal>(())
/// ```
///
/// # Refusals
///
/// 16.
pub fn add(store: &mut [u8], number: u16) -> Result<(), Refusal> {
    // SAFETY: the call reads and writes the store alone and keeps nothing of it.
    unsafe { ffi::bog_nack_add(store.as_mut_ptr(), store.len(), number) }
        .result()
        .map(|_| ())
}

/// Writes a store's numbers as entries of four bytes, ascending, none passing 65,535, and answers the bytes written: at
/// most 15,424, and none for the empty set.
///
/// ```
/// use bogslipper::{nack, Refusal};
///
/// let mut store = vec![0; nack::STORE_LENGTH];
/// nack::add(&mut store, 16)?;
/// nack::add(&mut store, 0)?;
/// let mut out = [0; 8];
/// let written = nack::write(&store, &mut out)?;
/// assert_eq!(out[..written], [0x00, 0x00, 0x80, 0x00]);
/// # Ok::<(), Refusal>(())
/// ```
///
/// # Refusals
///
/// In this order: 16; 15, in bytes.
pub fn write(store: &[u8], out: &mut [u8]) -> Result<usize, Refusal> {
    // SAFETY: the call reads the store and writes the buffer, which do not overlap, and keeps nothing of either.
    let said =
        unsafe { ffi::bog_nack_write(store.as_ptr(), store.len(), out.as_mut_ptr(), out.len()) };
    let [written, ..] = said.result()?;
    Ok(written as usize)
}

/// The numbers that a NACK names.
///
/// ```
/// use bogslipper::{Nack, Refusal};
///
/// let nack = Nack::parse(&[0xFF, 0xFF, 0x00, 0x01])?;
/// assert!(nack.entries().eq([65_535, 0]));
/// # Ok::<(), Refusal>(())
/// ```
#[derive(Clone, Debug, PartialEq, Eq)]
pub struct Nack {
    entries: Vec<u16>,
}

impl Nack {
    /// The format, a feedback packet's count, that says NACK.
    ///
    /// ```
    /// assert_eq!(bogslipper::Nack::FCI_FORMAT, 1);
    /// ```
    pub const FCI_FORMAT: u8 = 1;

    /// Reads the feedback control information of a NACK into a list of its own. Any bytes are NACK entries.
    ///
    /// ```
    /// use bogslipper::{Nack, Refusal};
    ///
    /// assert_eq!(Nack::parse(&[])?.entries().count(), 0);
    /// # Ok::<(), Refusal>(())
    /// ```
    pub fn parse(data: &[u8]) -> Result<Nack, Refusal> {
        let mut entries = vec![0; needed(read(data, &mut []))?];
        read(data, &mut entries)?;
        Ok(Nack { entries })
    }

    /// The numbers in their order, repeats included.
    ///
    /// ```
    /// use bogslipper::{Nack, Refusal};
    ///
    /// let nack = Nack::parse(&[0, 10, 0, 1, 0, 10, 0, 0])?;
    /// assert_eq!(nack.entries().collect::<Vec<u16>>(), [10, 11, 10]);
    /// # Ok::<(), Refusal>(())
    /// ```
    pub fn entries(&self) -> impl Iterator<Item = u16> + '_ {
        self.entries.iter().copied()
    }

    /// The list of the numbers itself.
    ///
    /// ```
    /// use bogslipper::{Nack, Refusal};
    ///
    /// assert_eq!(Nack::parse(&[0, 10, 0x80, 0])?.into_entries(), [10, 26]);
    /// # Ok::<(), Refusal>(())
    /// ```
    pub fn into_entries(self) -> Vec<u16> {
        self.entries
    }

    /// A writer of a NACK that names no number yet.
    ///
    /// ```
    /// use bogslipper::Nack;
    ///
    /// assert_eq!(Nack::builder().calculate_size(), Ok(0));
    /// ```
    pub fn builder() -> NackBuilder {
        NackBuilder::default()
    }
}

/// A set of numbers, and the writer of the NACK that names them.
///
/// ```
/// use bogslipper::{NackBuilder, Refusal};
///
/// let nack = NackBuilder::default().add_rtp_sequence(17).add_rtp_sequence(0);
/// let mut buf = vec![0; nack.calculate_size()?];
/// nack.write_into(&mut buf)?;
/// assert_eq!(buf, [0, 0, 0, 0, 0, 17, 0, 0]);
/// # Ok::<(), Refusal>(())
/// ```
#[derive(Clone, PartialEq, Eq)]
#[must_use = "a builder writes nothing until it is told where"]
pub struct NackBuilder {
    store: Box<[u8; STORE_LENGTH]>,
}

impl NackBuilder {
    /// Adds a number; one that is there already changes nothing.
    ///
    /// ```
    /// use bogslipper::NackBuilder;
    ///
    /// let once = NackBuilder::default().add_rtp_sequence(7);
    /// assert_eq!(once.clone().add_rtp_sequence(7), once);
    /// ```
    pub fn add_rtp_sequence(mut self, rtp_sequence: u16) -> Self {
        add(self.store.as_mut_slice(), rtp_sequence).expect("the store has its length");
        self
    }

    /// The bytes that the entries take.
    ///
    /// ```
    /// use bogslipper::NackBuilder;
    ///
    /// assert_eq!(NackBuilder::default().add_rtp_sequence(7).calculate_size(), Ok(4));
    /// ```
    pub fn calculate_size(&self) -> Result<usize, Refusal> {
        needed(self.write_into(&mut []))
    }

    /// Writes the entries at the front of a buffer and answers the bytes written.
    ///
    /// ```
    /// use bogslipper::{NackBuilder, Refusal};
    ///
    /// let refusal = Refusal::OutputTooSmall { needed: 4, present: 3 };
    /// let nack = NackBuilder::default().add_rtp_sequence(7);
    /// assert_eq!(nack.write_into(&mut [0; 3]), Err(refusal));
    /// ```
    ///
    /// # Refusals
    ///
    /// 15, in bytes.
    pub fn write_into(&self, buf: &mut [u8]) -> Result<usize, Refusal> {
        write(self.store.as_slice(), buf)
    }
}

impl Default for NackBuilder {
    fn default() -> NackBuilder {
        NackBuilder {
            store: Box::new([0; STORE_LENGTH]),
        }
    }
}

/// The numbers as a set, where the store's bytes would fill pages.
impl fmt::Debug for NackBuilder {
    fn fmt(&self, f: &mut fmt::Formatter<'_>) -> fmt::Result {
        let holds = |number: &u16| self.store[usize::from(number / 8)] >> (number % 8) & 1 == 1;
        f.write_str("NackBuilder ")?;
        f.debug_set().entries((0..=u16::MAX).filter(holds)).finish()
    }
}
