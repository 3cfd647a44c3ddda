//! What the encryption engine replied to an order (document 02, P5).

use crate::raw;

/// How the engine replied to the order that it was given.
///
/// Say `Done` only where the engine itself said so. Where it said nothing in the order's
/// timeout, the drive's own timer says `TimedOut`.
#[derive(Clone, Copy, Debug, PartialEq, Eq)]
pub enum EngineReply {
    /// It carried out the order.
    Done,
    /// It did not answer in time; whether it carried out the order is not known.
    TimedOut,
    /// It failed, with the vendor's number, which is not kept.
    Failed(u32),
}

impl EngineReply {
    /// The reply as the archive takes it: its number, and the vendor's, 0 where none is told.
    pub(crate) fn to_raw(self) -> (u32, u32) {
        match self {
            EngineReply::Done => (raw::ENGINE_DONE, 0),
            EngineReply::TimedOut => (raw::ENGINE_TIMED_OUT, 0),
            EngineReply::Failed(vendor) => (raw::ENGINE_FAILED, vendor),
        }
    }
}
