//! RTCP feedback read and written by a proved library, as safe calls on slices.
//!
//! Every call ends with an answer or with a numbered [`Refusal`], on any bytes and any numbers; none panics. Buffers are
//! lent: after a refusal they are as they were, after an answer only the answer's bytes have changed. Names are those of
//! the crate rtcp-types where it has one.
//!
//! ```
//! use bogslipper::{Compound, Refusal};
//!
//! fn feedback_formats(received: &[u8]) -> Result<Vec<u8>, Refusal> {
//!     let mut formats = Vec::new();
//!     for packet in Compound::parse(received)? {
//!         let packet = packet?;
//!         if packet.type_() == 205 {
//!             formats.push(packet.count());
//!         }
//!     }
//!     Ok(formats)
//! }
//!
//! assert_eq!(feedback_formats(&[0x80, 203, 0, 0, 0x8F, 205, 0, 0]), Ok(vec![15]));
//! assert_eq!(feedback_formats(&[0x80, 203]), Err(Refusal::Truncated { expected: 4, actual: 2 }));
//! ```

#![deny(missing_docs)]
#![deny(unsafe_op_in_unsafe_fn)]

mod refusal;
mod said;

#[doc(hidden)]
pub mod ffi;

pub mod compound;
pub mod nack;
pub mod twcc;
pub mod utils;

pub use compound::{Compound, Packet, Unknown, UnknownBuilder};
pub use nack::{Nack, NackBuilder};
pub use refusal::Refusal;
pub use twcc::{
    Twcc, TwccArrival, TwccBlocks, TwccBuilder, TwccPacketStatus, TWCC_MAX_REFERENCE_TIME,
};

/// The examples of the migration page.
#[cfg(doctest)]
#[doc = include_str!("../../../docs/MIGRATING.md")]
mod migrating {}
