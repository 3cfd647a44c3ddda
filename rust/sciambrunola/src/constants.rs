//! The numbers of documents 01 and 02 that a caller needs, under the names of the C header.

/// The version of the header and of the archive: it grows by one whenever something
/// changes for a caller (`docs/CHANGES.md`).
pub const VERSION: u32 = 12;
/// The bytes of the engine block.
pub const BLOCK_BYTES: usize = 128;
/// The bytes of the shortest response buffer that any command accepts: those of the longest
/// response, EHDL's.
pub const LEAST_RESPONSE: usize = 40;
/// The words of a [`Context`](crate::Context).
pub const CONTEXT_WORDS: usize = 38;
/// The places of the key cache.
pub const PLACES: usize = 16;
/// The most handles that the table has.
pub const HANDLES: usize = 3;
/// The most partitions that a map has.
pub const PARTITIONS: usize = 16;
/// The bytes of the longest image that [`write_map`](crate::write_map) writes: 8, and 8
/// for each of [`PARTITIONS`].
pub const LONGEST_IMAGE: usize = 8 + 8 * PARTITIONS;
/// The first short cell in FERS's response, where no pair is short.
pub const NO_CELL: u32 = 0xFFFF_FFFF;
/// The active slot's partition in FSTA's response, where no slot is active.
pub const NO_SLOT: u32 = 0xFFFF_FFFF;

/// The codes of the mailbox commands.
pub mod code {
    /// Clears the key cache.
    pub const CLKC: u32 = 0x434C_4B43;
    /// Loads a key.
    pub const KLOD: u32 = 0x4B4C_4F44;
    /// Unloads a key.
    pub const KUNL: u32 = 0x4B55_4E4C;
    /// Erases a partition.
    pub const FERS: u32 = 0x4645_5253;
    /// Tells the active slot and whether its HEK is available.
    pub const FSTA: u32 = 0x4653_5441;
    /// Lists the handles of the table.
    pub const EHDL: u32 = 0x4548_444C;
    /// Rotates a handle of the table.
    pub const RHPK: u32 = 0x5248_504B;
}

/// The kinds of a partition.
pub mod kind {
    /// A data word is a pair; the partition may be secret.
    pub const HARDWARE: u32 = 0;
    /// A data word is one cell.
    pub const SOFTWARE: u32 = 1;
    /// Never zeroizable, and never written.
    pub const LIFE_CYCLE: u32 = 2;
}

/// The flags of a partition, which are summed.
pub mod flag {
    /// It can be erased; its last pair is the indicator.
    pub const ZEROIZABLE: u32 = 1;
    /// Its words are not read.
    pub const SECRET: u32 = 2;
    /// It is a slot of the HEK.
    pub const SLOT: u32 = 4;
    /// Its ZEROIZE is that of the older guide, whose answer tells nothing of stuck fuses: see
    /// [`Answer::Word`](crate::Answer::Word). Only a zeroizable partition has it.
    pub const OLDER_GUIDE: u32 = 8;
}

/// The refusal numbers.
pub mod refusal {
    /// The map breaks a rule.
    pub const MAP: u32 = 1;
    /// Cells or marks are not as many as the map says, block or response buffer have not
    /// the length they need, or the context has no table, or one whose count is not 1 to
    /// [`HANDLES`](crate::HANDLES); also what [`make_table`](crate::make_table) refuses.
    pub const LENGTHS: u32 = 2;
    /// Unknown code.
    pub const CODE: u32 = 3;
    /// The request has not its exact length.
    pub const REQUEST_LENGTH: u32 = 4;
    /// Wrong chksum.
    pub const CHKSUM: u32 = 5;
    /// Reserved is not zero.
    pub const RESERVED: u32 = 6;
    /// No such partition, or the cell starts no word.
    pub const NOT_FOUND: u32 = 7;
    /// The command may not touch it.
    pub const FORBIDDEN: u32 = 8;
    /// WRITE would clear a fuse.
    pub const CLEARS_FUSE: u32 = 9;
    /// Slot change while a place of the key cache is not empty.
    pub const KEYS_HELD: u32 = 10;
    /// KLOD, HEK not available.
    pub const NO_HEK: u32 = 11;
    /// KLOD, a place that is not empty has the tag already.
    pub const TAG_HELD: u32 = 12;
    /// KLOD, no empty place.
    pub const NO_PLACE: u32 = 13;
    /// KUNL, no place that is not empty has the tag.
    pub const TAG_NOT_HELD: u32 = 14;
    /// The erasure's indicator has no set fuse after its burn: every fuse of it is
    /// stuck, and none was set before. The erasure stops before the data: the seed is
    /// still there, and asking again gives 15 again.
    pub const INDICATOR_UNSET: u32 = 15;
    /// The map's text has not its form, or the buffer for the image is too short.
    pub const TEXT: u32 = 16;
    /// A mailbox command other than FSTA while the engine's reply is awaited or a place
    /// waits: hand in the reply first, by [`engine_reply`](crate::engine_reply).
    pub const AWAITING: u32 = 17;
    /// KLOD or KUNL while a place is unsure: CLKC, answered done, empties it.
    pub const UNSURE: u32 = 18;
    /// A reply of the engine, and none is awaited.
    pub const NOT_AWAITED: u32 = 19;
    /// RHPK, no handle of the table is the one that is asked for.
    pub const NO_HANDLE: u32 = 20;
    /// RHPK, the greatest number ever given is the last one there is, or more, as only a
    /// damaged context has it.
    pub const NUMBERS_USED_UP: u32 = 21;
}
