//! Generated drives: fuses that make every state common, over a given map.

use crate::random::Random;
use model::{Drive, Header, Map};

/// A drive over this image, with as many cells and marks as the image's C asks
/// for. A bad image may ask for 65,535, so no more than 2,049 are made.
pub fn over(random: &mut Random, image: Vec<u8>) -> Drive {
    let asked = Header::read(&image).map_or(0, |header| usize::from(header.cells));
    // Cells of no partition, and those of a bad map, hold anything.
    let mut cells = random.cells(asked.min(2049));
    if let Some(map) = Map::read(&image) {
        for entry in map.entries() {
            fill(random, map.bound() as usize, entry.data_cells(), &mut cells[entry.range()]);
        }
    }
    let marks = match random.below(3) {
        0 => vec![0; cells.len()],
        1 => vec![u32::MAX; cells.len()],
        _ => random.cells(cells.len()),
    };
    Drive { image, cells, marks }
}

/// The same with fuses that leave something to burn: half of the partitions hold little, and the
/// marks let a word that is burned whole end at the bound, one below it, or anywhere. Half of the
/// indicators are set and stuck as `weaken` does it.
pub fn to_burn(random: &mut Random, image: Vec<u8>) -> Drive {
    let mut drive = over(random, image);
    if let Some(map) = drive.map() {
        for entry in map.entries() {
            if random.one_in(2) {
                drive.cells[entry.range()].fill_with(|| sparse(random));
            }
        }
        drive.marks = marks_near(random, map.bound() as usize, &drive.cells);
        for entry in map.entries().iter().filter(|entry| entry.zeroizable()) {
            let indicator = entry.range().end - 2..entry.range().end;
            if random.one_in(2) {
                weaken(random, &mut drive.cells[indicator.clone()], &mut drive.marks[indicator]);
            }
        }
    }
    drive
}

/// Makes an indicator one of which every fuse, all but one or none is stuck, and none is set, or
/// one, or any number of them.
fn weaken(random: &mut Random, cells: &mut [u32], marks: &mut [u32]) {
    let any = random.below(65);
    let (set, stuck) = (random.pick(&[0, 0, 0, 1, any]), random.pick(&[64, 64, 63, 0]));
    set_ones(random, set, cells);
    set_ones(random, stuck, marks);
}

/// Makes cells or marks, or both, longer or shorter.
pub fn damage_lengths(random: &mut Random, drive: &mut Drive) {
    let any = random.below(drive.cells.len() + 1);
    let (cells, marks) = (drive.cells.len(), drive.marks.len());
    match random.below(6) {
        0 => drive.cells.truncate(cells.saturating_sub(1)),
        1 => drive.cells.push(0),
        2 => drive.marks.truncate(marks.saturating_sub(1)),
        3 => drive.marks.push(0),
        4 => drive.cells.truncate(any),
        _ => (drive.cells, drive.marks) = (vec![], vec![]),
    }
}

/// A cell with few fuses set, if any.
fn sparse(random: &mut Random) -> u32 {
    let (few, one) = (random.cell() & random.cell() & random.cell(), 1 << random.below(32));
    random.pick(&[0, 0, one, few])
}

/// Marks that stick some of each pair's unset fuses, and of set ones any.
fn marks_near(random: &mut Random, bound: usize, cells: &[u32]) -> Vec<u32> {
    let mut marks = random.cells(cells.len());
    for (marks, cells) in marks.chunks_exact_mut(2).zip(cells.chunks_exact(2)) {
        let (spare, any) = (64 - bound, random.below(65));
        let stuck = random.pick(&[0, spare, spare, spare + 1, spare + 1, any]);
        let unset = u64::from(!cells[0]) + (u64::from(!cells[1]) << 32);
        let chosen = some_ones(random, stuck, unset);
        marks[0] = (marks[0] & cells[0]) | chosen as u32;
        marks[1] = (marks[1] & cells[1]) | (chosen >> 32) as u32;
    }
    marks
}

/// So many of the ones of a number, anywhere in it, or all if it has fewer.
fn some_ones(random: &mut Random, count: usize, of: u64) -> u64 {
    let (start, odd) = (random.below(64), 2 * random.below(32) + 1);
    let bits = (0..64).map(|step| 1 << ((start + odd * step) % 64));
    bits.filter(|bit| of & bit != 0).take(count).sum()
}

/// Fills a partition's cells in one of the ways that reach all four states.
fn fill(random: &mut Random, bound: usize, data: usize, cells: &mut [u32]) {
    let way = random.below(8);
    for pair in cells.chunks_exact_mut(2) {
        let ones = match way {
            0..=2 => random.pick(&[bound, bound + 1, 64]),
            3 => random.pick(&[bound - 1, bound, 64]),
            4 => random.pick(&[0, 1, bound - 1, bound, bound + 1, 64]),
            5 | 6 => random.pick(&[0, bound - 1, bound]),
            _ => random.below(65),
        };
        set_ones(random, ones, pair);
    }
    let (pair, last) = (2 * random.below(cells.len() / 2), cells.len() - 2);
    let cell = random.below(cells.len());
    // No fuse of the last pair, the indicator where there is one, so that it is not marked.
    if way >= 4 && random.one_in(2) {
        cells[last..].fill(0);
    }
    match way {
        // One pair, perhaps the indicator, just short.
        1 => set_ones(random, bound - 1, &mut cells[pair..pair + 2]),
        // No data, with any digest and indicator.
        5 => cells[..data].fill(0),
        // As little as can be: one fuse, in the data or behind them.
        6 => {
            cells[..data].fill(0);
            cells[cell] |= 1 << random.below(32);
        }
        _ => {}
    }
}

/// Makes a pair hold this many ones, anywhere in it.
fn set_ones(random: &mut Random, ones: usize, pair: &mut [u32]) {
    let fuses = some_ones(random, ones, u64::MAX);
    (pair[0], pair[1]) = (fuses as u32, (fuses >> 32) as u32);
}
