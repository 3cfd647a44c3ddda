//! Document 01, "The map of the fuses".

use std::ops::Range;

/// The four numbers at the start of an image.
#[derive(Clone, Copy)]
pub struct Header {
    /// P
    pub partitions: u16,
    /// C
    pub cells: u16,
    /// B
    pub bound: u16,
    /// E
    pub offset: u16,
}

/// One partition.
#[derive(Clone, Copy)]
pub struct Entry {
    /// The first cell.
    pub first: u16,
    /// The number of cells.
    pub length: u16,
    /// 0 hardware, 1 software, 2 life cycle.
    pub kind: u8,
    /// 1 zeroizable, 2 secret, 4 HEK slot, 8 older guide.
    pub flags: u8,
}

/// A map that breaks no rule.
pub struct Map<'a> {
    /// The header.
    pub header: Header,
    entries: &'a [u8],
}

impl<'a> Map<'a> {
    /// The map in an image, none if it breaks a rule.
    pub fn read(image: &'a [u8]) -> Option<Map<'a>> {
        let header = Header::read(image.get(..8)?);
        let (offset, partitions) = (usize::from(header.offset), usize::from(header.partitions));
        if !header.is_good() || image.len() != offset + 8 * partitions {
            return None;
        }
        let (before, entries) = image.split_at(offset);
        if before[8..].iter().any(|byte| *byte != 0) {
            return None;
        }
        let mut end = 0;
        for bytes in entries.chunks_exact(8) {
            let entry = Entry::read(bytes);
            if bytes[6] != 0 || bytes[7] != 0 || !entry.is_good(end, header.cells) {
                return None;
            }
            end = entry.range().end;
        }
        Some(Map { header, entries })
    }

    /// The entries in map order.
    pub fn entries(&self) -> impl Iterator<Item = Entry> + 'a {
        self.entries.chunks_exact(8).map(Entry::read)
    }

    /// The entry of this number.
    pub fn entry(&self, number: u32) -> Option<Entry> {
        self.entries().nth(number as usize)
    }
}

impl Header {
    fn read(bytes: &[u8]) -> Header {
        Header {
            partitions: u16_at(bytes, 0),
            cells: u16_at(bytes, 2),
            bound: u16_at(bytes, 4),
            offset: u16_at(bytes, 6),
        }
    }

    fn is_good(&self) -> bool {
        (1..=16).contains(&self.partitions)
            && (4..=2048).contains(&self.cells)
            && (33..=64).contains(&self.bound)
            && (8..=128).contains(&self.offset)
    }
}

impl Entry {
    fn read(bytes: &[u8]) -> Entry {
        Entry { first: u16_at(bytes, 0), length: u16_at(bytes, 2), kind: bytes[4], flags: bytes[5] }
    }

    /// Whether it keeps its rules, after an entry that ends at `end`.
    fn is_good(&self, end: usize, cells: u16) -> bool {
        let Range { start, end: own_end } = self.range();
        self.kind <= 2
            && self.flags <= 15
            && self.first % 2 == 0
            && self.length % 2 == 0
            && self.length >= if self.is_zeroizable() { 6 } else { 4 }
            && start >= end
            && own_end <= usize::from(cells)
            && !(self.kind == 2 && self.is_zeroizable())
            && !(self.kind != 0 && self.is_secret())
            && (!self.is_slot() || (self.is_zeroizable() && self.is_secret()))
            && (!self.is_on_older_guide() || self.is_zeroizable())
    }

    /// The partition's cells in the whole array.
    pub fn range(&self) -> Range<usize> {
        let first = usize::from(self.first);
        first..first + usize::from(self.length)
    }

    /// Whether a data word is one cell.
    pub fn is_software(&self) -> bool {
        self.kind == 1
    }

    /// Flag 1.
    pub fn is_zeroizable(&self) -> bool {
        self.flags & 1 != 0
    }

    fn is_secret(&self) -> bool {
        self.flags & 2 != 0
    }

    /// Flag 4.
    pub fn is_slot(&self) -> bool {
        self.flags & 4 != 0
    }

    fn is_on_older_guide(&self) -> bool {
        self.flags & 8 != 0
    }
}

fn u16_at(bytes: &[u8], at: usize) -> u16 {
    u16::from_le_bytes([bytes[at], bytes[at + 1]])
}
