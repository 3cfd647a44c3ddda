//! Why a drive offers no key (document 02, P1).

use crate::raw;

/// What [`why`](crate::why) answers: exactly one of these holds.
#[must_use]
#[derive(Clone, Copy, Debug, PartialEq, Eq)]
pub enum Reason {
    /// The HEK is available: there is no reason to give.
    Available,
    /// The map has no slot.
    NoSlot,
    /// The map has slots, and all of them are erased.
    AllErased,
    /// The active slot is blank: it holds no seed.
    Blank {
        /// The active slot's partition.
        partition: u32,
    },
    /// The active slot is torn: its indicator has a set fuse, and some other pair of it
    /// is short. Its seed may still be there.
    Torn {
        /// The active slot's partition.
        partition: u32,
        /// The first cell, in the whole array, of its first short pair, which is the
        /// lowest with fewer ones than the map's bound, in its data or its digest. It is
        /// never the indicator's, which may be short too.
        cell: u32,
        /// That pair's ones.
        ones: u32,
    },
    /// Refused with this number: 1 for a bad map, 2 for cells or marks that are
    /// not as many as the map says.
    Refused(u32),
}

impl Reason {
    pub(crate) fn from_raw(reason: raw::Reason) -> Reason {
        let raw::Reason { kind, refusal, partition, cell, ones } = reason;
        match kind {
            raw::REASON_AVAILABLE => Reason::Available,
            raw::REASON_NO_SLOT => Reason::NoSlot,
            raw::REASON_ALL_ERASED => Reason::AllErased,
            raw::REASON_BLANK => Reason::Blank { partition },
            raw::REASON_TORN => Reason::Torn { partition, cell, ones },
            _ => Reason::Refused(refusal),
        }
    }
}
