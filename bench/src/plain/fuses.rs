//! Document 01, "Burning and counting" and the active slot; document 02, P1, P4 and P8.

use super::map::{Entry, Map};
use super::Refusal;
use model::{Reason, State};

/// Writes the state and the short pairs of each partition to the front of the
/// array, and says how many partitions there are: refusals 1 and 2.
#[inline(never)]
pub fn states(
    image: &[u8],
    cells: &[u32],
    marks: &[u32],
    listed: &mut [(State, u32); 16],
) -> Result<u32, Refusal> {
    let map = super::checked_map(image, cells, marks)?;
    for (entry, place) in map.entries().zip(listed) {
        *place = survey(&cells[entry.range()], entry, map.header.bound);
    }
    Ok(map.header.partitions.into())
}

/// Why there is no HEK, or that it is available: refusals 1 and 2.
#[inline(never)]
pub fn why(image: &[u8], cells: &[u32], marks: &[u32]) -> Result<Reason, Refusal> {
    let map = super::checked_map(image, cells, marks)?;
    Ok(match active_slot(&map, cells) {
        None if map.entries().any(|entry| entry.is_slot()) => Reason::AllErased,
        None => Reason::NoSlot,
        Some((partition, State::Blank)) => Reason::Blank { partition },
        Some((partition, State::Torn)) => {
            let slot = map.entries().nth(partition as usize).expect("it is a slot").range();
            let judged = slot.start..slot.end - 2;
            let mut named = judged.clone().step_by(2).zip(cells[judged].chunks_exact(2));
            let short = named.find(|(_, pair)| is_short(pair, map.header.bound));
            let (cell, pair) = short.expect("a torn slot has a short pair besides its indicator");
            Reason::Torn { partition, cell: cell as u32, ones: ones(pair) }
        }
        Some(_) => Reason::Available,
    })
}

/// The first slot that is not erased, with its state.
pub fn active_slot(map: &Map, cells: &[u32]) -> Option<(u32, State)> {
    for (number, entry) in (0..).zip(map.entries()) {
        if entry.is_slot() {
            let (state, _) = survey(&cells[entry.range()], entry, map.header.bound);
            if state != State::Erased {
                return Some((number, state));
            }
        }
    }
    None
}

/// A partition's state and its short pairs.
fn survey(part: &[u32], entry: Entry, bound: u16) -> (State, u32) {
    let short = part.chunks_exact(2).filter(|pair| is_short(pair, bound)).count() as u32;
    let tail = if entry.is_zeroizable() { 4 } else { 2 };
    let data = &part[..part.len() - tail];
    let last = &part[part.len() - 2..];
    let state = if entry.is_zeroizable() && marks_partition(last) {
        if short == u32::from(is_short(last, bound)) {
            State::Erased
        } else {
            State::Torn
        }
    } else if data.iter().all(|cell| *cell == 0) {
        State::Blank
    } else {
        State::Programmed
    };
    (state, short)
}

/// Whether an indicator has a set fuse, so that its partition is marked.
pub fn marks_partition(indicator: &[u32]) -> bool {
    indicator.iter().any(|cell| *cell != 0)
}

/// Whether a pair has fewer ones than the bound.
pub fn is_short(pair: &[u32], bound: u16) -> bool {
    ones(pair) < u32::from(bound)
}

/// The ones of a pair.
fn ones(pair: &[u32]) -> u32 {
    let fuses = u64::from(pair[0]) | u64::from(pair[1]) << 32;
    fuses.count_ones()
}

/// Burns all ones into a word of any number of cells, and counts the fuses that it newly sets.
pub fn burn(word: &mut [u32], marks: &[u32]) -> u32 {
    let mut new_fuses = 0;
    for (cell, mark) in word.iter_mut().zip(marks) {
        let before = cell.count_ones();
        *cell |= !mark;
        new_fuses += cell.count_ones() - before;
    }
    new_fuses
}
