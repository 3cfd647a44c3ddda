//! Document 01, "The map of the fuses", the other way round: from fields to an
//! image. No rule is checked, so that bad images can be built as well.

use crate::map::{Entry, SECRET, SLOT, ZEROIZABLE};

/// "The map of the fuses": the flags of a slot, which "must be zeroizable and secret".
pub const SLOT_FLAGS: u8 = ZEROIZABLE | SECRET | SLOT;

/// "The map of the fuses": what an image is built from. P is the number of entries.
#[derive(Clone, Debug)]
pub struct Image {
    /// Cell count C.
    pub cells: u16,
    /// Bound B.
    pub bound: u16,
    /// Offset E of the entries.
    pub entries_at: u16,
    /// The entries in map order.
    pub entries: Vec<Entry>,
}

impl Image {
    /// "The map of the fuses": the bytes, with zeros from byte 8 up to E.
    pub fn bytes(&self) -> Vec<u8> {
        let partitions = u16::try_from(self.entries.len()).expect("P is a u16");
        let header = [partitions, self.cells, self.bound, self.entries_at];
        let mut bytes: Vec<u8> = header.into_iter().flat_map(u16::to_le_bytes).collect();
        // Filler up to E; an E below 8 cuts the header's end off instead.
        bytes.resize(usize::from(self.entries_at), 0);
        for entry in &self.entries {
            bytes.extend([entry.first, entry.n].map(u16::to_le_bytes).concat());
            bytes.extend([entry.kind, entry.flags, entry.zeros[0], entry.zeros[1]]);
        }
        bytes
    }
}

/// "The map of the fuses": an entry whose two zero bytes are zero.
pub fn entry(first: u16, n: u16, kind: u8, flags: u8) -> Entry {
    Entry { first, n, kind, flags, zeros: [0, 0] }
}
