//! Document 01, "Erasing a partition", without cuts; document 02, P4 and P8.

use super::cache::any_held;
use super::fuses::{burn, is_short, marks_partition};
use super::map::{Entry, Map};
use super::{Drive, Refusal};
use model::Cache;

/// What a whole erasure answers.
pub struct Erased {
    /// The short pairs.
    pub short_pairs: u32,
    /// The first cell of the lowest one.
    pub first_short: Option<u32>,
    /// The burns carried out.
    pub burns: u32,
    /// The fuses that they newly set.
    pub new_fuses: u32,
}

/// Erases a partition: refusals 1, 2, 7, 8, 10 and 15.
#[inline(never)]
pub fn erase(drive: &mut Drive, cache: &Cache, partition: u32) -> Result<Erased, Refusal> {
    let map = drive.map()?;
    let entry = judge(&map, cache, partition)?;
    run(&map, drive, entry)
}

/// The partition, if it may be erased: refusals 7, 8 and 10.
pub fn judge(map: &Map, cache: &Cache, number: u32) -> Result<Entry, Refusal> {
    let entry = map.entry(number).ok_or(7_u32)?;
    if !entry.is_zeroizable() {
        return Err(8);
    }
    if entry.is_slot() && any_held(cache) {
        return Err(10);
    }
    Ok(entry)
}

/// Erases a partition that was judged: refusal 15.
pub fn run(map: &Map, drive: &mut Drive, entry: Entry) -> Result<Erased, Refusal> {
    let (part, marks) = (&mut drive.cells[entry.range()], &drive.marks[entry.range()]);
    let (burns, new_fuses) = burn_in_order(part, marks, entry)?;
    let (short_pairs, lowest) = count_short(part, map.header.bound);
    let first_short = lowest.map(|pair| u32::from(entry.first) + 2 * pair);
    Ok(Erased { short_pairs, first_short, burns, new_fuses })
}

/// Burns the indicator, the data words ascending and the digest, and counts the burns and the fuses
/// that they newly set: refusal 15.
fn burn_in_order(part: &mut [u32], marks: &[u32], entry: Entry) -> Result<(u32, u32), Refusal> {
    let (digest, indicator) = (part.len() - 4, part.len() - 2);
    let first = burn(&mut part[indicator..], &marks[indicator..]);
    if !marks_partition(&part[indicator..]) {
        return Err(15);
    }
    let (burns, data) = if entry.is_software() {
        burn_words::<1>(&mut part[..digest], marks)
    } else {
        burn_words::<2>(&mut part[..digest], marks)
    };
    let last = burn(&mut part[digest..indicator], &marks[digest..indicator]);
    Ok((burns + 2, first + data + last))
}

/// Burns words of so many cells, one by one, and counts them and the fuses that they newly set.
fn burn_words<const CELLS: usize>(data: &mut [u32], marks: &[u32]) -> (u32, u32) {
    let (mut burns, mut new_fuses) = (0, 0);
    for (word, marks) in data.chunks_exact_mut(CELLS).zip(marks.chunks_exact(CELLS)) {
        new_fuses += burn(word, marks);
        burns += 1;
    }
    (burns, new_fuses)
}

/// The number of short pairs, and the lowest of them.
fn count_short(part: &[u32], bound: u16) -> (u32, Option<u32>) {
    let mut short = 0;
    let mut lowest = None;
    for (number, pair) in (0..).zip(part.chunks_exact(2)) {
        if is_short(pair, bound) {
            short += 1;
            lowest = lowest.or(Some(number));
        }
    }
    (short, lowest)
}
