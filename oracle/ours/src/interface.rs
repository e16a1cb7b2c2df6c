//! The calls over slices, part by part, with what they say as it stands; the bindings declare them.
//!
//! Each is `#[inline]`, so that a program links those calls alone that it uses.

use bogslipper::ffi;
pub use bogslipper::ffi::Said;

/// What a call is expected to say.
pub trait Expect {
    fn answer(values: &[u64]) -> Self;
    fn refusal(number: u64, values: &[u64]) -> Self;
}

impl Expect for Said {
    fn answer(values: &[u64]) -> Said {
        Said::refusal(0, values)
    }

    fn refusal(number: u64, values: &[u64]) -> Said {
        let mut said = Said {
            number,
            values: [0; 8],
        };
        said.values[..values.len()].copy_from_slice(values);
        said
    }
}

// Header fields and the check of one packet.

#[inline]
pub fn version(data: &[u8]) -> Said {
    unsafe { ffi::bog_version(data.as_ptr(), data.len()) }
}

#[inline]
pub fn padding_bit(data: &[u8]) -> Said {
    unsafe { ffi::bog_padding_bit(data.as_ptr(), data.len()) }
}

#[inline]
pub fn count(data: &[u8]) -> Said {
    unsafe { ffi::bog_count(data.as_ptr(), data.len()) }
}

#[inline]
pub fn packet_type(data: &[u8]) -> Said {
    unsafe { ffi::bog_packet_type(data.as_ptr(), data.len()) }
}

#[inline]
pub fn length(data: &[u8]) -> Said {
    unsafe { ffi::bog_length(data.as_ptr(), data.len()) }
}

#[inline]
pub fn padding(data: &[u8]) -> Said {
    unsafe { ffi::bog_padding(data.as_ptr(), data.len()) }
}

#[inline]
pub fn check_packet(data: &[u8], least: u64, kind: u8) -> Said {
    unsafe { ffi::bog_check_packet(data.as_ptr(), data.len(), least, kind) }
}

// Compounds, packets of any type, and the plain packet writer.

#[inline]
pub fn compound_parse(data: &[u8]) -> Said {
    unsafe { ffi::bog_compound_parse(data.as_ptr(), data.len()) }
}

#[inline]
pub fn unknown_parse(data: &[u8]) -> Said {
    unsafe { ffi::bog_unknown_parse(data.as_ptr(), data.len()) }
}

#[inline]
pub fn walk_step(data: &[u8], offset: u64) -> Said {
    unsafe { ffi::bog_walk_step(data.as_ptr(), data.len(), offset) }
}

#[inline]
pub fn unknown_write(count: u8, kind: u8, body: &[u8], padding: u8, out: &mut [u8]) -> Said {
    unsafe {
        ffi::bog_unknown_write(
            count,
            kind,
            body.as_ptr(),
            body.len(),
            padding,
            out.as_mut_ptr(),
            out.len(),
        )
    }
}

// Generic NACK.

#[inline]
pub fn nack_add(store: &mut [u8], number: u16) -> Said {
    unsafe { ffi::bog_nack_add(store.as_mut_ptr(), store.len(), number) }
}

#[inline]
pub fn nack_read(data: &[u8], list: &mut [u16]) -> Said {
    unsafe { ffi::bog_nack_read(data.as_ptr(), data.len(), list.as_mut_ptr(), list.len()) }
}

#[inline]
pub fn nack_write(store: &[u8], out: &mut [u8]) -> Said {
    unsafe { ffi::bog_nack_write(store.as_ptr(), store.len(), out.as_mut_ptr(), out.len()) }
}

// Reading a TWCC block.

#[inline]
pub fn twcc_read(block: &[u8], list: &mut [i32]) -> Said {
    unsafe { ffi::bog_twcc_read(block.as_ptr(), block.len(), list.as_mut_ptr(), list.len()) }
}

// Writing a TWCC block.

#[inline]
pub fn twcc_write(
    base: u16,
    time: u32,
    feedback: u8,
    list: &[i32],
    limit: Option<u64>,
    out: &mut [u8],
) -> Said {
    unsafe {
        ffi::bog_twcc_write(
            base,
            time,
            feedback,
            list.as_ptr(),
            list.len(),
            limit.is_some(),
            limit.unwrap_or(0),
            out.as_mut_ptr(),
            out.len(),
        )
    }
}

// Arrivals.

#[inline]
pub fn arrivals(time: u32) -> Said {
    unsafe { ffi::bog_arrivals(time) }
}

#[inline]
pub fn arrivals_next(placed: bool, ticks: i64, word: i32) -> Said {
    unsafe { ffi::bog_arrivals_next(placed, ticks, word) }
}
