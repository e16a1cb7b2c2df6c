//! The calls of `include/bogslipper.h`, declared once for Rust. The safe calls of this crate are over them; programs that
//! look at the struct itself, as the comparison with rtcp-types does, use them as they stand.
//!
//! What each call reads, writes, answers and refuses is said in the header.
//!
//! # Safety
//!
//! A pointer and the count behind it are a slice: memory of that many elements that is the caller's to read (`*const`) or
//! to write (`*mut`) for the length of the call, aligned for its elements. The slices of one call do not overlap. An empty
//! slice may have any pointer. No call keeps a pointer.

/// What every call says: number 0 and the answer's values, or a refusal's number and its values. The rest are 0; a signed
/// value stands in its two's complement.
#[repr(C)]
#[derive(Clone, Copy, Debug, PartialEq, Eq)]
pub struct Said {
    /// 0, or the refusal's number.
    pub number: u64,
    /// The values of either, in order.
    pub values: [u64; 8],
}

extern "C" {
    // header fields and the check of one packet
    pub fn bog_version(data: *const u8, n: usize) -> Said;
    pub fn bog_padding_bit(data: *const u8, n: usize) -> Said;
    pub fn bog_count(data: *const u8, n: usize) -> Said;
    pub fn bog_packet_type(data: *const u8, n: usize) -> Said;
    pub fn bog_length(data: *const u8, n: usize) -> Said;
    pub fn bog_padding(data: *const u8, n: usize) -> Said;
    pub fn bog_check_packet(data: *const u8, n: usize, least: u64, packet_type: u8) -> Said;

    // compounds, packets of any type, and the plain packet writer
    pub fn bog_compound_parse(data: *const u8, n: usize) -> Said;
    pub fn bog_unknown_parse(data: *const u8, n: usize) -> Said;
    pub fn bog_walk_step(data: *const u8, n: usize, offset: u64) -> Said;
    pub fn bog_unknown_write(
        count: u8,
        packet_type: u8,
        body: *const u8,
        body_n: usize,
        padding: u8,
        out: *mut u8,
        out_n: usize,
    ) -> Said;

    // generic NACK
    pub fn bog_nack_add(store: *mut u8, store_n: usize, number: u16) -> Said;
    pub fn bog_nack_read(data: *const u8, n: usize, list: *mut u16, list_n: usize) -> Said;
    pub fn bog_nack_write(store: *const u8, store_n: usize, out: *mut u8, out_n: usize) -> Said;

    // TWCC blocks and arrivals
    pub fn bog_twcc_read(block: *const u8, n: usize, list: *mut i32, list_n: usize) -> Said;
    pub fn bog_twcc_write(
        base: u16,
        time: u32,
        feedback: u8,
        list: *const i32,
        list_n: usize,
        limited: bool,
        limit: u64,
        out: *mut u8,
        out_n: usize,
    ) -> Said;
    pub fn bog_arrivals(time: u32) -> Said;
    pub fn bog_arrivals_next(placed: bool, ticks: i64, word: i32) -> Said;
}
