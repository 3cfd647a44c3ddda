//! Document 01, "The map of the fuses": an image that keeps every rule.

mod fields;
mod rules;

pub use fields::{Entry, Header, HARDWARE, LIFE_CYCLE, SOFTWARE};
pub use fields::{OLDER_GUIDE, SECRET, SLOT, ZEROIZABLE};
pub use rules::{broken_rules, Rule};

/// "The map of the fuses": the fields of an image that breaks no rule.
///
/// Only `Map::read` makes one, so whoever holds a `Map` may rely on the rules.
#[derive(Clone, Debug, PartialEq, Eq)]
pub struct Map {
    header: Header,
    entries: Vec<Entry>,
}

/// "The map of the fuses": the three parts of a partition.
#[derive(Clone, Copy, Debug, PartialEq, Eq)]
pub enum Part {
    /// "The remaining cells are data."
    Data,
    /// The digest pair.
    Digest,
    /// The indicator pair of a zeroizable partition.
    Indicator,
}

/// "The map of the fuses": "A word is a pair in kinds 0 and 2; in kind 1 a data
/// word is one cell, digest and indicator are pairs".
#[derive(Clone, Copy, Debug, PartialEq, Eq)]
pub enum Size {
    /// One cell, 32 fuses.
    Cell,
    /// An even cell and the next, 64 fuses.
    Pair,
}

impl Size {
    /// P7: "all ones at the word's width".
    pub fn all_ones(self) -> u64 {
        match self {
            Size::Cell => 0xFFFF_FFFF,
            Size::Pair => 0xFFFF_FFFF_FFFF_FFFF,
        }
    }
}

/// "The map of the fuses": a word, named by its first cell.
#[derive(Clone, Copy, Debug, PartialEq, Eq)]
pub struct Word {
    /// Number of the partition it lies in.
    pub partition: usize,
    /// The part of the partition it lies in.
    pub part: Part,
    /// One cell or a pair.
    pub size: Size,
}

impl Map {
    /// "The map of the fuses": the map in the image, or none if it breaks a rule.
    pub fn read(image: &[u8]) -> Option<Map> {
        if !broken_rules(image).is_empty() {
            return None;
        }
        let header = Header::read(image)?;
        let entries = Entry::read_all(image, &header);
        Some(Map { header, entries })
    }

    /// "The map of the fuses": the header.
    pub fn header(&self) -> Header {
        self.header
    }

    /// "The map of the fuses": cell count C.
    pub fn cells(&self) -> usize {
        usize::from(self.header.cells)
    }

    /// "The map of the fuses": bound B.
    pub fn bound(&self) -> u64 {
        u64::from(self.header.bound)
    }

    /// "The map of the fuses": the entries in map order, one per partition.
    pub fn entries(&self) -> &[Entry] {
        &self.entries
    }

    /// "The map of the fuses": the word that starts at a cell of the whole
    /// array. None for a cell of no partition, past C, or the high half of a pair.
    pub fn word_at(&self, cell: usize) -> Option<Word> {
        let holds_cell = |entry: &Entry| entry.range().contains(&cell);
        let partition = self.entries().iter().position(holds_cell)?;
        let entry = &self.entries()[partition];
        let digest = entry.range().start + entry.data_cells();
        let part = match cell {
            cell if cell < digest => Part::Data,
            cell if cell < digest + 2 => Part::Digest,
            _ => Part::Indicator,
        };
        let one_cell = entry.kind == SOFTWARE && part == Part::Data;
        let size = if one_cell { Size::Cell } else { Size::Pair };
        let high_half = size == Size::Pair && cell % 2 == 1;
        (!high_half).then_some(Word { partition, part, size })
    }
}
