//! The structs that the archive answers with, as `include/sciambrunola.h` declares them, the
//! numbers of their kinds, and those of the engine's reply.

pub(crate) const STATE_ERASED: u32 = 0;
pub(crate) const STATE_TORN: u32 = 1;
pub(crate) const STATE_BLANK: u32 = 2;

pub(crate) const REASON_AVAILABLE: u32 = 0;
pub(crate) const REASON_NO_SLOT: u32 = 1;
pub(crate) const REASON_ALL_ERASED: u32 = 2;
pub(crate) const REASON_BLANK: u32 = 3;
pub(crate) const REASON_TORN: u32 = 4;

pub(crate) const WORD: u32 = 0;
pub(crate) const DONE: u32 = 1;
pub(crate) const WITHHELD: u32 = 2;

pub(crate) const ENDED: u32 = 0;
pub(crate) const CUT: u32 = 1;

pub(crate) const PLACE_EMPTY: u32 = 0;
pub(crate) const PLACE_HELD: u32 = 1;
pub(crate) const PLACE_WAITING: u32 = 2;

pub(crate) const CLEAR: u32 = 1;
pub(crate) const LOAD: u32 = 2;
pub(crate) const UNLOAD: u32 = 3;

pub(crate) const ENGINE_DONE: u32 = 1;
pub(crate) const ENGINE_TIMED_OUT: u32 = 2;
pub(crate) const ENGINE_FAILED: u32 = 3;

/// `sci_fields`
#[repr(C)]
pub(crate) struct Fields {
    pub(crate) refusal: u32,
    pub(crate) partitions: u32,
    pub(crate) cells: u32,
    pub(crate) bound: u32,
    pub(crate) first: u32,
    pub(crate) length: u32,
    pub(crate) kind: u32,
    pub(crate) flags: u32,
}

/// `sci_written`
#[repr(C)]
pub(crate) struct Written {
    pub(crate) refusal: u32,
    pub(crate) bytes: u32,
}

/// `sci_listing`
#[repr(C)]
pub(crate) struct Listing {
    pub(crate) refusal: u32,
    pub(crate) partitions: u32,
}

/// `sci_reason`
#[repr(C)]
pub(crate) struct Reason {
    pub(crate) kind: u32,
    pub(crate) refusal: u32,
    pub(crate) partition: u32,
    pub(crate) cell: u32,
    pub(crate) ones: u32,
}

/// `sci_place`
#[repr(C)]
pub(crate) struct Place {
    pub(crate) kind: u32,
    pub(crate) tag: u64,
}

/// `sci_answer`
#[repr(C)]
pub(crate) struct Answer {
    pub(crate) kind: u32,
    pub(crate) refusal: u32,
    pub(crate) word: u64,
    pub(crate) new_fuses: u32,
}

/// `sci_erasure`
#[repr(C)]
pub(crate) struct Erasure {
    pub(crate) kind: u32,
    pub(crate) refusal: u32,
    pub(crate) short_pairs: u32,
    pub(crate) first_short: u32,
    pub(crate) burns: u32,
    pub(crate) new_fuses: u32,
}

/// `sci_reply`
#[repr(C)]
pub(crate) struct Reply {
    pub(crate) refusal: u32,
    pub(crate) length: u32,
    pub(crate) order: u32,
    pub(crate) place: u32,
    pub(crate) timeout: u32,
}
