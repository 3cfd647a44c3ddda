//! Document 01, "The small drive", and any other drive as the programs get it.

use crate::image::{entry, Image, SLOT_FLAGS};
use crate::map::{Header, Map, HARDWARE, SOFTWARE};

/// "Burning and counting": a map image with its "two lent runs of 32-bit
/// numbers". Nothing is checked: a drive may be a bad one.
#[derive(Clone, Debug, Default, PartialEq, Eq)]
pub struct Drive {
    /// The map image.
    pub image: Vec<u8>,
    /// The fuse cells.
    pub cells: Vec<u32>,
    /// The stuck marks.
    pub marks: Vec<u32>,
}

impl Drive {
    /// "The small drive"
    pub fn small() -> Drive {
        let slot = entry(0, 6, HARDWARE, SLOT_FLAGS);
        let software = entry(6, 6, SOFTWARE, 0);
        let image = Image { cells: 12, bound: 60, entries_at: 8, entries: vec![slot, software] };
        let mut cells = vec![0; 12];
        cells[0] = 1;
        Drive { image: image.bytes(), cells, marks: vec![0; 12] }
    }

    /// "The map of the fuses": the map in the image, none if it breaks a rule.
    pub fn map(&self) -> Option<Map> {
        Map::read(&self.image)
    }

    /// "Refusal numbers", 2: "cells or marks not C long". C is the header's,
    /// whatever else is wrong with the map; without a header there is no C.
    pub fn lengths_are_wrong(&self) -> bool {
        let wrong = |c: usize| self.cells.len() != c || self.marks.len() != c;
        Header::read(&self.image).map_or(false, |header| wrong(header.cells.into()))
    }

    /// The map, if it is good and the cells are as many as it says: whatever
    /// asks about fuses needs both.
    pub fn map_with_cells(&self) -> Option<Map> {
        self.map().filter(|map| map.cells() == self.cells.len())
    }

    /// "The small drive": the standard input of the status program, "a u16 map
    /// length, the map, C cells, C marks", which `why` reads too.
    pub fn status_input(&self) -> Vec<u8> {
        let length = u16::try_from(self.image.len()).expect("the map length is a u16");
        let mut input = length.to_le_bytes().to_vec();
        input.extend(&self.image);
        input.extend(self.cells.iter().chain(&self.marks).flat_map(|cell| cell.to_le_bytes()));
        input
    }
}
