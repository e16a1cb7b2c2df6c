//! From what a call says to a `Result`.

use crate::ffi::Said;
use crate::Refusal;

impl Said {
    /// The answer's values. They fit the types that the callers of this crate get: the library's contracts bound them.
    pub(crate) fn result(self) -> Result<[u64; 8], Refusal> {
        match self.number {
            0 => Ok(self.values),
            number => Err(Refusal::new(number, self.values)),
        }
    }
}

/// The room that an answer needs, learnt from the call with no room at all.
pub(crate) fn needed(answer_without_room: Result<usize, Refusal>) -> Result<usize, Refusal> {
    match answer_without_room {
        Err(Refusal::OutputTooSmall { needed, .. }) => Ok(needed),
        answer => answer,
    }
}
