//! A drive, read from its text and written as bytes.

use crate::map;
use crate::text::{cell, hexadecimal, past_end, spoken, Line, Mistake};
use std::ops::RangeInclusive;

/// The form of the lines of the fuses.
const FUSES: &str = "`cell CELLS VALUE` or `mark CELLS VALUE`";

/// A drive as its text says it. Its map keeps every rule: the library has written it.
#[derive(Clone, Debug, PartialEq, Eq)]
pub struct Drive {
    image: Vec<u8>,
    cells: Vec<u32>,
    marks: Vec<u32>,
}

impl Drive {
    /// Reads a text: the map's lines, then the lines of the fuses.
    ///
    /// # Errors
    /// What is wrong with the text, and in which line.
    pub fn read(text: &str) -> Result<Drive, Mistake> {
        let lines = spoken(text)?;
        if lines.is_empty() {
            return Err(past_end(text, map::FIRST_LINE));
        }
        // The first line and the next, a partition, are the map's whatever they say. Behind them
        // the lines of the map begin with a digit, those of the fuses with a name.
        let of_map = |line: &&Line| line.text.starts_with(|first: char| first.is_ascii_digit());
        let more = lines.iter().skip(2).take_while(of_map).count();
        let (of_map, of_fuses) = lines.split_at(lines.len().min(2 + more));
        let image = map::image(of_map)?;
        let count = map::cells(&image);
        // A value for each cell and each mark, none where no line has given one.
        let mut given = [vec![None; count], vec![None; count]];
        for line in of_fuses {
            line.read(FUSES, |words| give(words, &mut given))?;
        }
        let values = |given: Vec<Option<u32>>| given.iter().map(|v| v.unwrap_or(0)).collect();
        let [cells, marks] = given.map(values);
        Ok(Drive { image, cells, marks })
    }

    /// The map's image.
    pub fn image(&self) -> &[u8] {
        &self.image
    }

    /// The fuse cells.
    pub fn cells(&self) -> &[u32] {
        &self.cells
    }

    /// The stuck marks, one for each cell.
    pub fn marks(&self) -> &[u32] {
        &self.marks
    }

    /// What the status program reads: a u16 map length, the map, the cells, the
    /// marks, all little-endian.
    pub fn bytes(&self) -> Vec<u8> {
        let length = u16::try_from(self.image.len()).expect("a map takes what its length can say");
        let mut bytes = [&length.to_le_bytes(), self.image()].concat();
        bytes.extend(self.cells.iter().chain(&self.marks).flat_map(|fuses| fuses.to_le_bytes()));
        bytes
    }
}

/// Reads a line of the fuses: which cells or marks are not 0.
fn give([name, run, value]: [&str; 3], given: &mut [Vec<Option<u32>>; 2]) -> Result<(), String> {
    let [cells, marks] = given;
    let given = match name {
        "cell" => cells,
        "mark" => marks,
        _ => return Err(format!("wanted {FUSES}, not {name:?}")),
    };
    let value = hexadecimal(value)?;
    for cell in cells_of(run, given.len())? {
        if given[cell].replace(value).is_some() {
            return Err(format!("{name} {cell} has a value already"));
        }
    }
    Ok(())
}

/// The cells `N` or `FIRST-LAST`, of so many.
fn cells_of(run: &str, count: usize) -> Result<RangeInclusive<usize>, String> {
    let (from, to) = run.split_once('-').unwrap_or((run, run));
    let (first, last) = (cell(from)?, cell(to)?);
    if last >= count {
        return Err(format!("cell {to} is past the end: C is {count}, and the first cell is 0"));
    }
    if first > last {
        return Err(format!("the run {run} ends before it begins"));
    }
    Ok(first..=last)
}
