//! Document 01, "The map of the fuses": the fields of the header and of an entry, with P7 of
//! document 02.

use std::ops::Range;

/// "The map of the fuses": kind 0, hardware.
pub const HARDWARE: u8 = 0;
/// "The map of the fuses": kind 1, software.
pub const SOFTWARE: u8 = 1;
/// "The map of the fuses": kind 2, life cycle.
pub const LIFE_CYCLE: u8 = 2;

/// "The map of the fuses": flag 1, zeroizable.
pub const ZEROIZABLE: u8 = 1;
/// "The map of the fuses": flag 2, secret.
pub const SECRET: u8 = 2;
/// "The map of the fuses": flag 4, HEK slot.
pub const SLOT: u8 = 4;
/// P7: flag 8, a board on the older guide.
pub const OLDER_GUIDE: u8 = 8;

/// "The map of the fuses": "Header, four u16", little-endian.
#[derive(Clone, Copy, Debug, PartialEq, Eq)]
pub struct Header {
    /// Partition count P.
    pub partitions: u16,
    /// Cell count C.
    pub cells: u16,
    /// Bound B.
    pub bound: u16,
    /// Offset E of the entries.
    pub entries_at: u16,
}

impl Header {
    /// "The map of the fuses": the header of an image, none if the image is
    /// too short to hold one. No rule is checked.
    pub fn read(image: &[u8]) -> Option<Header> {
        let bytes = image.get(..8)?;
        Some(Header {
            partitions: u16_at(bytes, 0),
            cells: u16_at(bytes, 2),
            bound: u16_at(bytes, 4),
            entries_at: u16_at(bytes, 6),
        })
    }
}

/// "The map of the fuses": "Entry, 8 bytes".
#[derive(Clone, Copy, Debug, PartialEq, Eq)]
pub struct Entry {
    /// First cell, counted in the whole array.
    pub first: u16,
    /// Cells n.
    pub n: u16,
    /// Kind: 0 hardware, 1 software, 2 life cycle.
    pub kind: u8,
    /// Flags: 1 zeroizable, 2 secret, 4 HEK slot, 8 older guide.
    pub flags: u8,
    /// The "two zero bytes", as they stand in the image.
    pub zeros: [u8; 2],
}

impl Entry {
    /// "The map of the fuses": the P entries from offset E on. Entries that do
    /// not lie wholly in the image are left out; the length rule reports them.
    pub fn read_all(image: &[u8], header: &Header) -> Vec<Entry> {
        let entries = image.get(usize::from(header.entries_at)..).unwrap_or(&[]);
        let entry = |bytes: &[u8]| Entry {
            first: u16_at(bytes, 0),
            n: u16_at(bytes, 2),
            kind: bytes[4],
            flags: bytes[5],
            zeros: [bytes[6], bytes[7]],
        };
        entries.chunks_exact(8).take(usize::from(header.partitions)).map(entry).collect()
    }

    /// "The map of the fuses": the partition's cells in the whole array.
    pub fn range(&self) -> Range<usize> {
        let first = usize::from(self.first);
        first..first + usize::from(self.n)
    }

    /// "The map of the fuses": flag 1.
    pub fn zeroizable(&self) -> bool {
        self.flags & ZEROIZABLE != 0
    }

    /// "The map of the fuses": flag 2.
    pub fn secret(&self) -> bool {
        self.flags & SECRET != 0
    }

    /// "The map of the fuses": flag 4.
    pub fn slot(&self) -> bool {
        self.flags & SLOT != 0
    }

    /// P7: "Flag 8 on a partition selects its ZEROIZE".
    pub fn older_guide(&self) -> bool {
        self.flags & OLDER_GUIDE != 0
    }

    /// "The map of the fuses": how many cells, from the partition's first one
    /// on, are data. "A zeroizable partition ends with the indicator pair,
    /// before it the digest pair; any other ends with the digest pair. The
    /// remaining cells are data." Good maps only.
    pub fn data_cells(&self) -> usize {
        let tail = if self.zeroizable() { 4 } else { 2 };
        usize::from(self.n) - tail
    }
}

fn u16_at(bytes: &[u8], at: usize) -> u16 {
    u16::from_le_bytes([bytes[at], bytes[at + 1]])
}
