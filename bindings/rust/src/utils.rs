//! Header fields and the check of one packet.

/// Fields read alone and the check that every packet passes first.
///
/// A field read alone needs the header's four bytes and looks at nothing else.
pub mod parser {
    use crate::ffi;
    use crate::Refusal;

    /// The version, the top two bits of the first byte.
    ///
    /// ```
    /// use bogslipper::utils::parser::parse_version;
    ///
    /// assert_eq!(parse_version(&[0x80, 203, 0, 0]), Ok(2));
    /// ```
    ///
    /// # Refusals
    ///
    /// 1 on fewer than four bytes.
    #[inline]
    pub fn parse_version(packet: &[u8]) -> Result<u8, Refusal> {
        // SAFETY: the call reads the slice alone and keeps nothing of it; so do the calls below.
        let [version, ..] = unsafe { ffi::bog_version(packet.as_ptr(), packet.len()) }.result()?;
        Ok(version as u8)
    }

    /// The padding bit of the first byte.
    ///
    /// ```
    /// use bogslipper::utils::parser::parse_padding_bit;
    ///
    /// assert_eq!(parse_padding_bit(&[0xA0, 203, 0, 0]), Ok(true));
    /// ```
    ///
    /// # Refusals
    ///
    /// 1 on fewer than four bytes.
    #[inline]
    pub fn parse_padding_bit(packet: &[u8]) -> Result<bool, Refusal> {
        // SAFETY: as in `parse_version`.
        let [bit, ..] = unsafe { ffi::bog_padding_bit(packet.as_ptr(), packet.len()) }.result()?;
        Ok(bit == 1)
    }

    /// The count, the low five bits of the first byte.
    ///
    /// ```
    /// use bogslipper::utils::parser::parse_count;
    ///
    /// assert_eq!(parse_count(&[0x8F, 205, 0, 0]), Ok(15));
    /// ```
    ///
    /// # Refusals
    ///
    /// 1 on fewer than four bytes.
    #[inline]
    pub fn parse_count(packet: &[u8]) -> Result<u8, Refusal> {
        // SAFETY: as in `parse_version`.
        let [count, ..] = unsafe { ffi::bog_count(packet.as_ptr(), packet.len()) }.result()?;
        Ok(count as u8)
    }

    /// The packet type, the second byte.
    ///
    /// ```
    /// use bogslipper::utils::parser::parse_packet_type;
    ///
    /// assert_eq!(parse_packet_type(&[0x80, 203, 0, 0]), Ok(203));
    /// ```
    ///
    /// # Refusals
    ///
    /// 1 on fewer than four bytes.
    #[inline]
    pub fn parse_packet_type(packet: &[u8]) -> Result<u8, Refusal> {
        // SAFETY: as in `parse_version`.
        let [kind, ..] = unsafe { ffi::bog_packet_type(packet.as_ptr(), packet.len()) }.result()?;
        Ok(kind as u8)
    }

    /// The packet's length in bytes, 4 to 262,144, as its third and fourth byte state it.
    ///
    /// ```
    /// use bogslipper::utils::parser::parse_length;
    ///
    /// assert_eq!(parse_length(&[0x80, 203, 0, 1]), Ok(8));
    /// ```
    ///
    /// # Refusals
    ///
    /// 1 on fewer than four bytes.
    #[inline]
    pub fn parse_length(packet: &[u8]) -> Result<usize, Refusal> {
        // SAFETY: as in `parse_version`.
        let [length, ..] = unsafe { ffi::bog_length(packet.as_ptr(), packet.len()) }.result()?;
        Ok(length as usize)
    }

    /// The padding count, the last byte of the packet's own length, or `None` where the padding bit is clear.
    ///
    /// Bytes behind the packet are allowed.
    ///
    /// ```
    /// use bogslipper::utils::parser::parse_padding;
    ///
    /// assert_eq!(parse_padding(&[0xA0, 203, 0, 1, 0, 0, 0, 4]), Ok(Some(4)));
    /// assert_eq!(parse_padding(&[0x80, 203, 0, 1]), Ok(None));
    /// ```
    ///
    /// # Refusals
    ///
    /// 1 on fewer than four bytes; 1 where the bit is set and the packet is not whole.
    #[inline]
    pub fn parse_padding(packet: &[u8]) -> Result<Option<u8>, Refusal> {
        // SAFETY: as in `parse_version`.
        let [set, count, ..] =
            unsafe { ffi::bog_padding(packet.as_ptr(), packet.len()) }.result()?;
        Ok((set == 1).then_some(count as u8))
    }

    /// Checks that the bytes are one whole packet of version 2, of a type and of a least length.
    ///
    /// A padding count larger than the body passes.
    ///
    /// ```
    /// use bogslipper::utils::parser::check_packet;
    /// use bogslipper::Refusal;
    ///
    /// let bye = [0x81, 203, 0, 1, 0, 0, 0, 7];
    /// assert_eq!(check_packet(&bye, 4, 203), Ok(()));
    /// let refusal = Refusal::PacketTypeMismatch { actual: 203, requested: 205 };
    /// assert_eq!(check_packet(&bye, 4, 205), Err(refusal));
    /// ```
    ///
    /// # Refusals
    ///
    /// In this order: 17, the least length is outside 4 to 262,144; 1, shorter than it; 2, version; 3, type; 1, shorter
    /// than its own length; 4, longer; 5, padding bit with a count of 0.
    #[inline]
    pub fn check_packet(packet: &[u8], least: usize, packet_type: u8) -> Result<(), Refusal> {
        // SAFETY: as in `parse_version`.
        unsafe { ffi::bog_check_packet(packet.as_ptr(), packet.len(), least as u64, packet_type) }
            .result()
            .map(|_| ())
    }
}
