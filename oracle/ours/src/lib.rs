//! Our library through its C interface, for the programs that compare and measure it.

mod interface;
mod random;

pub use interface::*;
pub use random::Random;
