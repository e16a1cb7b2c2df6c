//! Compounds, packets of any type, and the plain packet writer.

use std::iter::FusedIterator;

use crate::ffi;
use crate::said::needed;
use crate::utils::parser;
use crate::Refusal;

/// A compound that the first pass accepted; an iterator over its packets.
///
/// Each item is a [`Packet`], a part of the compound's bytes; laid end to end they are all of them. Items are `Result`s as those of
/// rtcp-types are, and none is an `Err`: what would be refused the first pass has refused.
///
/// ```
/// use bogslipper::{Compound, Refusal};
///
/// let bytes = [0x80, 203, 0, 0, 0x81, 204, 0, 1, 1, 2, 3, 4];
/// let mut types = Vec::new();
/// for packet in Compound::parse(&bytes)? {
///     let packet = packet?;
///     types.push((packet.type_(), packet.body()));
/// }
/// assert_eq!(types, [(203, &[][..]), (204, &[1, 2, 3, 4])]);
/// # Ok::<(), Refusal>(())
/// ```
#[derive(Clone, Debug)]
pub struct Compound<'a> {
    data: &'a [u8],
    offset: usize,
}

impl<'a> Compound<'a> {
    /// Checks the length and the version of every packet, that none but the last is padded, and that its padding count fits.
    ///
    /// ```
    /// use bogslipper::{Compound, Refusal};
    ///
    /// assert!(Compound::parse(&[0x80, 203, 0, 0]).is_ok());
    /// assert!(Compound::parse(&[0xA0, 203, 0, 1, 0, 0, 0, 4]).is_ok());
    /// let padded_first = [0xA0, 203, 0, 0, 0x80, 203, 0, 0];
    /// assert_eq!(Compound::parse(&padded_first).unwrap_err(), Refusal::InvalidPadding);
    /// let other_version = [0x80, 203, 0, 0, 0x40, 203, 0, 0];
    /// let refusal = Refusal::UnsupportedVersion { version: 1 };
    /// assert_eq!(Compound::parse(&other_version).unwrap_err(), refusal);
    /// ```
    ///
    /// # Refusals
    ///
    /// 1 on no bytes. Then at each packet: 1, fewer than four bytes left; 2, its own version; 1, its length goes past the end;
    /// 5, padding bit before the last packet, or a padding count that is 0, no multiple of 4 or above the packet's length less
    /// 4. Expected lengths count from the start of the data.
    ///
    /// Chromium, Firefox and pion pad some TWCC packets by 1 to 3 bytes, which is refused with 5. The calls on one packet's bytes
    /// take such a packet:
    ///
    /// ```
    /// use bogslipper::utils::parser::{check_packet, parse_padding};
    /// use bogslipper::{Compound, Refusal, Twcc};
    ///
    /// let sent = [
    ///     0xAF, 205, 0, 5, 0, 0, 0, 1, 0, 0, 0, 2, // header, sender, media source
    ///     0, 7, 0, 1, 0, 0, 0, 0, 0x20, 1, 9, 1, // a TWCC block of 11 bytes, and padding that counts 1
    /// ];
    /// assert_eq!(Compound::parse(&sent).unwrap_err(), Refusal::InvalidPadding);
    /// check_packet(&sent, 12, 205)?;
    /// let padding = usize::from(parse_padding(&sent)?.unwrap_or(0));
    /// let size = sent[12..].len().checked_sub(padding).ok_or(Refusal::InvalidPadding)?;
    /// let block = Twcc::parse(&sent[12..][..size])?;
    /// assert_eq!(block.base_sequence_number(), 7);
    /// # Ok::<(), Refusal>(())
    /// ```
    pub fn parse(data: &'a [u8]) -> Result<Compound<'a>, Refusal> {
        // SAFETY: the call reads the slice alone and keeps nothing of it.
        unsafe { ffi::bog_compound_parse(data.as_ptr(), data.len()) }.result()?;
        Ok(Compound { data, offset: 0 })
    }
}

impl<'a> Iterator for Compound<'a> {
    type Item = Result<Packet<'a>, Refusal>;

    fn next(&mut self) -> Option<Self::Item> {
        match walk_step(self.data, self.offset) {
            Ok(found) => {
                let (packet, next) = found?;
                self.offset = next;
                Some(Ok(packet))
            }
            Err(refusal) => {
                self.offset = self.data.len();
                Some(Err(refusal))
            }
        }
    }
}

impl FusedIterator for Compound<'_> {}

/// A packet that the walk found, and how its bytes are shared out: the header's four, the body, the padding.
///
/// The three always add up to the packet's length.
///
/// ```
/// use bogslipper::{Compound, Refusal};
///
/// let bytes = [0xA3, 204, 0, 2, 1, 2, 3, 4, 0, 0, 0, 4];
/// let packet = Compound::parse(&bytes)?.next().expect("a packet")?;
/// assert_eq!((packet.type_(), packet.count()), (204, 3));
/// assert_eq!((packet.body(), packet.padding()), (&[1, 2, 3, 4][..], 4));
/// assert_eq!(4 + packet.body().len() + packet.padding(), packet.length());
/// # Ok::<(), Refusal>(())
/// ```
#[derive(Clone, Copy, Debug, PartialEq, Eq)]
pub struct Packet<'a> {
    data: &'a [u8],
    start: usize,
    body: &'a [u8],
    padding: usize,
}

impl<'a> Packet<'a> {
    /// The packet's bytes, header and padding included.
    ///
    /// ```
    /// # use bogslipper::{Compound, Refusal};
    /// let bytes = [0x80, 203, 0, 0];
    /// assert_eq!(Compound::parse(&bytes)?.next().expect("a packet")?.data(), bytes);
    /// # Ok::<(), Refusal>(())
    /// ```
    pub fn data(&self) -> &'a [u8] {
        self.data
    }

    /// Where the packet starts in the walked bytes.
    ///
    /// ```
    /// # use bogslipper::{Compound, Refusal};
    /// let bytes = [0x80, 203, 0, 0, 0x80, 203, 0, 0];
    /// let starts: Result<Vec<usize>, Refusal> =
    ///     Compound::parse(&bytes)?.map(|packet| Ok(packet?.start())).collect();
    /// assert_eq!(starts?, [0, 4]);
    /// # Ok::<(), Refusal>(())
    /// ```
    pub fn start(&self) -> usize {
        self.start
    }

    /// The packet's length in bytes.
    ///
    /// ```
    /// # use bogslipper::{Compound, Refusal};
    /// let bytes = [0x80, 203, 0, 1, 9, 9, 9, 9];
    /// assert_eq!(Compound::parse(&bytes)?.next().expect("a packet")?.length(), 8);
    /// # Ok::<(), Refusal>(())
    /// ```
    pub fn length(&self) -> usize {
        self.data.len()
    }

    /// What stands between the header's four bytes and the padding.
    ///
    /// ```
    /// # use bogslipper::{Compound, Refusal};
    /// let bytes = [0xA0, 203, 0, 2, 1, 2, 3, 4, 0, 0, 0, 4];
    /// assert_eq!(Compound::parse(&bytes)?.next().expect("a packet")?.body(), [1, 2, 3, 4]);
    /// # Ok::<(), Refusal>(())
    /// ```
    pub fn body(&self) -> &'a [u8] {
        self.body
    }

    /// The number of padding bytes, 0 where there are none.
    ///
    /// ```
    /// # use bogslipper::{Compound, Refusal};
    /// let bytes = [0xA0, 203, 0, 1, 0, 0, 0, 4];
    /// assert_eq!(Compound::parse(&bytes)?.next().expect("a packet")?.padding(), 4);
    /// # Ok::<(), Refusal>(())
    /// ```
    pub fn padding(&self) -> usize {
        self.padding
    }

    /// The packet type.
    ///
    /// ```
    /// # use bogslipper::{Compound, Refusal};
    /// assert_eq!(Compound::parse(&[0x80, 203, 0, 0])?.next().expect("a packet")?.type_(), 203);
    /// # Ok::<(), Refusal>(())
    /// ```
    pub fn type_(&self) -> u8 {
        accepted(parser::parse_packet_type(self.data))
    }

    /// The count; some types call it a format or a subtype.
    ///
    /// ```
    /// # use bogslipper::{Compound, Refusal};
    /// assert_eq!(Compound::parse(&[0x8F, 205, 0, 0])?.next().expect("a packet")?.count(), 15);
    /// # Ok::<(), Refusal>(())
    /// ```
    pub fn count(&self) -> u8 {
        accepted(parser::parse_count(self.data))
    }
}

/// One step of the walk over bytes that need not have passed [`Compound::parse`]: the packet at an offset and the next
/// offset, or `None` at or past the end.
///
/// Any offset is allowed; one inside a packet reads the bytes as they stand.
///
/// ```
/// use bogslipper::compound::walk_step;
/// use bogslipper::Refusal;
///
/// let bytes = [0x80, 203, 0, 0, 0x40, 203, 0, 0];
/// let (packet, next) = walk_step(&bytes, 0)?.expect("a packet");
/// assert_eq!((packet.data(), next), (&bytes[..4], 4));
/// assert_eq!(walk_step(&bytes, 4), Err(Refusal::UnsupportedVersion { version: 1 }));
/// assert_eq!(walk_step(&bytes, 8), Ok(None));
/// assert_eq!(walk_step(&[0xA0, 203, 0, 1, 0, 0, 0, 2], 0), Err(Refusal::InvalidPadding));
/// # Ok::<(), Refusal>(())
/// ```
///
/// # Refusals
///
/// In this order: 1, fewer than four bytes left; 1, its length goes past the end; 2, this packet's own version; 5, a padding count
/// that is 0, no multiple of 4 or above the packet's length less 4.
pub fn walk_step(data: &[u8], offset: usize) -> Result<Option<(Packet<'_>, usize)>, Refusal> {
    // SAFETY: the call reads the slice alone and keeps nothing of it.
    let said = unsafe { ffi::bog_walk_step(data.as_ptr(), data.len(), offset as u64) };
    let [over, next, start, length, body, padding, ..] = said.result()?.map(|value| value as usize);
    if over == 1 {
        return Ok(None);
    }
    let data = &data[start..start + length];
    let packet = Packet {
        data,
        start,
        body: &data[4..4 + body],
        padding,
    };
    Ok(Some((packet, next)))
}

/// One whole packet of any type.
///
/// ```
/// use bogslipper::{Refusal, Unknown};
///
/// let packet = Unknown::parse(&[0x81, 210, 0, 1, 9, 9, 9, 9])?;
/// assert_eq!((packet.type_(), packet.count(), packet.length()), (210, 1, 8));
/// # Ok::<(), Refusal>(())
/// ```
#[derive(Clone, Copy, Debug, PartialEq, Eq)]
pub struct Unknown<'a> {
    data: &'a [u8],
}

impl<'a> Unknown<'a> {
    /// Checks that the bytes are one whole packet of version 2. Neither type nor padding is looked at.
    ///
    /// ```
    /// use bogslipper::{Refusal, Unknown};
    ///
    /// let refusal = Refusal::TooLarge { expected: 4, actual: 5 };
    /// assert_eq!(Unknown::parse(&[0x80, 210, 0, 0, 0]), Err(refusal));
    /// ```
    ///
    /// # Refusals
    ///
    /// In this order: 1, fewer than four bytes; 2, version; 1, shorter than its length; 4, longer.
    pub fn parse(data: &'a [u8]) -> Result<Unknown<'a>, Refusal> {
        // SAFETY: the call reads the slice alone and keeps nothing of it.
        unsafe { ffi::bog_unknown_parse(data.as_ptr(), data.len()) }.result()?;
        Ok(Unknown { data })
    }

    /// A writer of one packet of a type. The body is what follows the header's four bytes.
    ///
    /// ```
    /// use bogslipper::{Refusal, Unknown};
    ///
    /// let mut buf = [0; 8];
    /// assert_eq!(Unknown::builder(210, &[1, 2, 3, 4]).write_into(&mut buf)?, 8);
    /// assert_eq!(buf, [0x80, 210, 0, 1, 1, 2, 3, 4]);
    /// # Ok::<(), Refusal>(())
    /// ```
    pub fn builder(type_: u8, body: &'a [u8]) -> UnknownBuilder<'a> {
        UnknownBuilder::new(type_, body)
    }

    /// The packet's bytes, header and padding included.
    ///
    /// ```
    /// # use bogslipper::{Refusal, Unknown};
    /// let bytes = [0x80, 210, 0, 0];
    /// assert_eq!(Unknown::parse(&bytes)?.data(), bytes);
    /// # Ok::<(), Refusal>(())
    /// ```
    pub fn data(&self) -> &'a [u8] {
        self.data
    }

    /// The packet type.
    ///
    /// ```
    /// # use bogslipper::{Refusal, Unknown};
    /// assert_eq!(Unknown::parse(&[0x80, 210, 0, 0])?.type_(), 210);
    /// # Ok::<(), Refusal>(())
    /// ```
    pub fn type_(&self) -> u8 {
        accepted(parser::parse_packet_type(self.data))
    }

    /// The count; some types call it a format or a subtype.
    ///
    /// ```
    /// # use bogslipper::{Refusal, Unknown};
    /// assert_eq!(Unknown::parse(&[0x8F, 205, 0, 0])?.count(), 15);
    /// # Ok::<(), Refusal>(())
    /// ```
    pub fn count(&self) -> u8 {
        accepted(parser::parse_count(self.data))
    }

    /// The packet's length in bytes.
    ///
    /// ```
    /// # use bogslipper::{Refusal, Unknown};
    /// assert_eq!(Unknown::parse(&[0x80, 210, 0, 0])?.length(), 4);
    /// # Ok::<(), Refusal>(())
    /// ```
    pub fn length(&self) -> usize {
        self.data.len()
    }

    /// The padding count, or `None` where the padding bit is clear.
    ///
    /// ```
    /// # use bogslipper::{Refusal, Unknown};
    /// assert_eq!(Unknown::parse(&[0xA0, 210, 0, 1, 0, 0, 0, 4])?.padding(), Some(4));
    /// # Ok::<(), Refusal>(())
    /// ```
    pub fn padding(&self) -> Option<u8> {
        accepted(parser::parse_padding(self.data))
    }
}

/// A field of a packet that [`Unknown::parse`] accepted or the walk found: it has its four bytes and is whole, so no field is refused.
fn accepted<T>(field: Result<T, Refusal>) -> T {
    field.expect("an accepted packet is whole")
}

/// The plain packet writer: header, body and padding.
///
/// ```
/// use bogslipper::{Refusal, UnknownBuilder};
///
/// let packet = UnknownBuilder::new(210, &[]).count(3).padding(4);
/// let mut buf = vec![0; packet.calculate_size()?];
/// packet.write_into(&mut buf)?;
/// assert_eq!(buf, [0xA3, 210, 0, 1, 0, 0, 0, 4]);
/// # Ok::<(), Refusal>(())
/// ```
#[derive(Clone, Copy, Debug)]
#[must_use = "a builder writes nothing until it is told where"]
pub struct UnknownBuilder<'a> {
    type_: u8,
    body: &'a [u8],
    count: u8,
    padding: u8,
}

impl<'a> UnknownBuilder<'a> {
    /// A packet of a type, with count 0 and no padding. The body is what follows the header's four bytes.
    ///
    /// ```
    /// use bogslipper::UnknownBuilder;
    ///
    /// assert_eq!(UnknownBuilder::new(210, &[1, 2, 3, 4]).calculate_size(), Ok(8));
    /// ```
    pub fn new(type_: u8, body: &'a [u8]) -> UnknownBuilder<'a> {
        UnknownBuilder {
            type_,
            body,
            count: 0,
            padding: 0,
        }
    }

    /// Sets the number of padding bytes, 0 for none.
    ///
    /// ```
    /// use bogslipper::UnknownBuilder;
    ///
    /// assert_eq!(UnknownBuilder::new(210, &[]).padding(8).calculate_size(), Ok(12));
    /// ```
    pub fn padding(mut self, padding: u8) -> Self {
        self.padding = padding;
        self
    }

    /// Sets the count.
    ///
    /// ```
    /// use bogslipper::{Refusal, UnknownBuilder};
    ///
    /// let refusal = Refusal::CountOutOfRange { count: 32 };
    /// assert_eq!(UnknownBuilder::new(210, &[]).count(32).calculate_size(), Err(refusal));
    /// ```
    pub fn count(mut self, count: u8) -> Self {
        self.count = count;
        self
    }

    /// The size of the packet: four bytes, the body and the padding.
    ///
    /// ```
    /// use bogslipper::UnknownBuilder;
    ///
    /// assert_eq!(UnknownBuilder::new(210, &[0; 16]).padding(4).calculate_size(), Ok(24));
    /// ```
    ///
    /// # Refusals
    ///
    /// As [`UnknownBuilder::write_into`], without 15.
    pub fn calculate_size(&self) -> Result<usize, Refusal> {
        needed(self.write_into(&mut []))
    }

    /// Writes the packet at the front of a buffer and answers the bytes written.
    ///
    /// ```
    /// use bogslipper::{Refusal, UnknownBuilder};
    ///
    /// let refusal = Refusal::OutputTooSmall { needed: 8, present: 7 };
    /// assert_eq!(UnknownBuilder::new(210, &[0; 4]).write_into(&mut [0; 7]), Err(refusal));
    /// ```
    ///
    /// # Refusals
    ///
    /// In this order: 8, count above 31; 9, padding not a multiple of 4; 11, body not a multiple of 4 or packet above
    /// 262,144 bytes; 15, lack of room.
    pub fn write_into(&self, buf: &mut [u8]) -> Result<usize, Refusal> {
        // SAFETY: the call reads the body and writes the buffer, which do not overlap, and keeps nothing of either.
        let said = unsafe {
            ffi::bog_unknown_write(
                self.count,
                self.type_,
                self.body.as_ptr(),
                self.body.len(),
                self.padding,
                buf.as_mut_ptr(),
                buf.len(),
            )
        };
        let [written, ..] = said.result()?;
        Ok(written as usize)
    }
}
