//! Document 01, "Burning and counting", as P4 of document 02 changes it: what the fuses of one
//! partition say.

use crate::fuse;
use crate::map::{Entry, Map};
use std::fmt;

/// "The map of the fuses": a partition with its cells, "handed on as a part of
/// the array that starts where the partition starts".
#[derive(Clone, Copy, Debug)]
pub struct Partition<'a> {
    entry: Entry,
    bound: u64,
    cells: &'a [u32],
}

/// "Burning and counting": "Its state is one of four", whose places, from 0, are
/// the numbers that C is told.
#[derive(Clone, Copy, Debug, PartialEq, Eq)]
pub enum State {
    /// P4: "marked with no short pair besides the indicator"
    Erased,
    /// P4: "marked otherwise"
    Torn,
    /// P4: "not marked"; "every data cell zero"
    Blank,
    /// P4: "not marked"; "some data fuse set"
    Programmed,
}

impl<'a> Partition<'a> {
    /// "The map of the fuses": the partition of that number in the whole array.
    pub fn of(map: &Map, number: usize, array: &'a [u32]) -> Partition<'a> {
        let entry = map.entries()[number];
        let cells = &array[entry.range()];
        Partition { entry, bound: map.bound(), cells }
    }

    /// "Burning and counting": the number of short pairs, those of the digest
    /// and of the indicator included. In kind 1 too, two data cells are one pair.
    pub fn short_pairs(&self) -> usize {
        self.short().count()
    }

    /// "Erasing a partition": "the first cell of the lowest one", in the whole
    /// array; none if no pair is short.
    pub fn lowest_short_pair(&self) -> Option<usize> {
        self.short().next()
    }

    /// P4: the lowest "short pair besides the indicator", by its first cell in the whole
    /// array; none if there is none. Zeroizable partitions only: the indicator is the last pair.
    pub fn lowest_short_besides_indicator(&self) -> Option<usize> {
        let indicator = self.entry.range().end - 2;
        self.short().find(|first| *first != indicator)
    }

    /// P4: "Call a zeroizable partition marked when its indicator has at least one set fuse."
    pub fn marked(&self) -> bool {
        let indicator = self.pairs().last();
        self.entry.zeroizable() && indicator.map_or(false, |pair| fuse::ones(pair) >= 1)
    }

    /// P4: "Erased now means marked with no short pair besides the indicator; torn means marked
    /// otherwise; blank and programmed mean not marked." These two are told apart by the data.
    pub fn state(&self) -> State {
        let data = &self.cells[..self.entry.data_cells()];
        match self.marked() {
            true if self.lowest_short_besides_indicator().is_none() => State::Erased,
            true => State::Torn,
            false if data.iter().all(|cell| *cell == 0) => State::Blank,
            false => State::Programmed,
        }
    }

    /// The short pairs, ascending, each by its first cell in the whole array.
    fn short(&self) -> impl Iterator<Item = usize> + 'a {
        let (bound, firsts) = (self.bound, self.entry.range().step_by(2));
        let named = firsts.zip(self.pairs());
        named.filter(move |(_, pair)| fuse::short(*pair, bound)).map(|(first, _)| first)
    }

    fn pairs(&self) -> impl Iterator<Item = [u32; 2]> + 'a {
        self.cells.chunks_exact(2).map(|pair| [pair[0], pair[1]])
    }
}

/// "The small drive": the names as the status program prints them, those above
/// in small letters.
impl fmt::Display for State {
    fn fmt(&self, f: &mut fmt::Formatter) -> fmt::Result {
        f.write_str(&format!("{self:?}").to_lowercase())
    }
}
