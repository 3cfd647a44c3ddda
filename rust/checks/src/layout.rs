//! A partition as its map lays it out, and what its cells count for.
//!
//! Of the model only the map is used, its rules and its fields, and nothing that burns or counts:
//! what is found with a layout is found whatever the model says of fuses.

use model::{Cut, Drive, Entry, Map, SOFTWARE};
use std::iter;
use std::ops::Range;

/// Where a partition's words lie, and the bound.
#[derive(Clone)]
pub struct Layout {
    /// Its cells in the whole array; the indicator is the last two.
    pub range: Range<usize>,
    pub zeroizable: bool,
    pub slot: bool,
    /// Cells of a data word.
    word_cells: usize,
    pub bound: u32,
}

impl Layout {
    /// Those of all partitions; none with "a bad map, cells or marks not C long".
    pub fn all(drive: &Drive) -> Vec<Layout> {
        let whole = |map: &Map| [drive.cells.len(), drive.marks.len()] == [map.cells(); 2];
        let map = match Map::read(&drive.image).filter(whole) {
            Some(map) => map,
            None => return vec![],
        };
        let layout = |entry: &Entry| Layout {
            range: entry.range(),
            zeroizable: entry.zeroizable(),
            slot: entry.slot(),
            word_cells: if entry.kind == SOFTWARE { 1 } else { 2 },
            bound: map.bound() as u32,
        };
        map.entries().iter().map(layout).collect()
    }

    /// None also with "no such partition".
    pub fn of(drive: &Drive, partition: u32) -> Option<Layout> {
        Layout::all(drive).into_iter().nth(partition as usize)
    }

    /// The cells of the indicator.
    pub fn indicator(&self) -> Range<usize> {
        self.range.end - 2..self.range.end
    }

    /// The first cell of the digest, which is before the indicator.
    pub fn digest(&self) -> usize {
        self.indicator().start - 2
    }

    /// "Order of burns": "indicator, data words ascending, digest", each word by
    /// its cells. No word at all in a partition that is not zeroizable.
    pub fn order(&self) -> Vec<Range<usize>> {
        if !self.zeroizable {
            return vec![];
        }
        let indicator = self.indicator();
        let digest = self.digest()..indicator.start;
        let firsts = (self.range.start..digest.start).step_by(self.word_cells);
        let data = firsts.map(|first| first..first + self.word_cells);
        iter::once(indicator).chain(data).chain(iter::once(digest)).collect()
    }

    /// The cells that an erasure burns, in its order, each with what is burned into it: "the first
    /// k burns are whole, the burn numbered k has the mask (its low 32 bits for a 32-bit word) in
    /// place of all ones, nothing follows".
    pub fn burned(&self, cut: Option<Cut>) -> Vec<(usize, u32)> {
        let last = cut.map_or(usize::MAX, |cut| cut.k as usize);
        let words = self.order().into_iter().enumerate().take_while(|(number, _)| *number <= last);
        let mask = cut.map_or(u64::MAX, |cut| cut.mask);
        let value = |number| if number < last { u64::MAX } else { mask };
        words.flat_map(|(number, word)| halves(word, value(number))).collect()
    }

    /// The ones of the indicator in these cells, or in the marks.
    pub fn indicator_ones(&self, cells: &[u32]) -> u32 {
        ones(&cells[self.indicator()])
    }

    /// By how many ones the indicator passes the bound.
    pub fn past_bound(&self, cells: &[u32]) -> i64 {
        i64::from(self.indicator_ones(cells)) - i64::from(self.bound)
    }

    /// Document 02, P4: "when its indicator has at least one set fuse"
    pub fn marked(&self, cells: &[u32]) -> bool {
        self.zeroizable && self.indicator_ones(cells) > 0
    }

    /// Counted as zeroized: "when it is zeroizable and its indicator is not short"
    pub fn counted(&self, cells: &[u32]) -> bool {
        self.zeroizable && self.past_bound(cells) >= 0
    }

    /// Marked, and yet not counted as zeroized.
    pub fn weakly_marked(&self, cells: &[u32]) -> bool {
        self.marked(cells) && !self.counted(cells)
    }

    /// The pairs with fewer ones than the bound, ascending, each by its first cell in the
    /// whole array and with its ones.
    pub fn short_pairs<'a>(&self, cells: &'a [u32]) -> impl Iterator<Item = (usize, u32)> + 'a {
        let (range, bound) = (self.range.clone(), self.bound);
        let pairs = range.step_by(2).map(|first| (first, ones(&cells[first..first + 2])));
        pairs.filter(move |(_, ones)| *ones < bound)
    }

    /// P4: "marked with no short pair besides the indicator"
    pub fn erased(&self, cells: &[u32]) -> bool {
        let indicator = self.indicator().start;
        self.marked(cells) && self.short_pairs(cells).all(|(first, _)| first == indicator)
    }

    /// P4: "marked otherwise"
    pub fn torn(&self, cells: &[u32]) -> bool {
        self.marked(cells) && !self.erased(cells)
    }
}

/// The ones of any cells.
pub fn ones(cells: &[u32]) -> u32 {
    cells.iter().map(|cell| cell.count_ones()).sum()
}

/// The cells of a word, each with its part of a value: "low half first".
pub fn halves(word: Range<usize>, value: u64) -> impl Iterator<Item = (usize, u32)> {
    word.enumerate().map(move |(half, cell)| (cell, (value >> (32 * half)) as u32))
}

/// Whether some fuse of these cells is neither set nor stuck.
pub fn would_burn(drive: &Drive, mut cells: Range<usize>) -> bool {
    cells.any(|cell| drive.cells[cell] | drive.marks[cell] != u32::MAX)
}

/// Whether some fuse of these cells is stuck, and not set.
pub fn is_stuck(drive: &Drive, mut cells: Range<usize>) -> bool {
    cells.any(|cell| drive.marks[cell] & !drive.cells[cell] != 0)
}

/// Whether a burn of this word set some of its fuses, and left others that would burn.
pub fn is_burned_in_part([before, after]: [&Drive; 2], word: Range<usize>) -> bool {
    before.cells[word.clone()] != after.cells[word.clone()] && would_burn(after, word)
}
