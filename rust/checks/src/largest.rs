//! Drives with the largest map: 16 partitions, 2,048 cells and an image of 256 bytes; and with the
//! largest partition.

use crate::maps::MOST_CELLS;
use crate::random::Random;
use model::{entry, Drive, Image, HARDWARE, PARTITIONS, SLOT_FLAGS, ZEROIZABLE};

/// The cells of one of its partitions.
pub const SHARE: usize = MOST_CELLS / PARTITIONS;
/// The cells behind a zeroizable partition's data: its digest and its indicator.
pub const TAIL: usize = 4;
/// The last partition.
pub const LAST: u32 = PARTITIONS as u32 - 1;

/// The map with every partition a slot.
pub fn slots() -> Image {
    let slot = |i: usize| entry((i * SHARE) as u16, SHARE as u16, HARDWARE, SLOT_FLAGS);
    let entries = (0..PARTITIONS).map(slot).collect();
    Image { cells: MOST_CELLS as u16, bound: 60, entries_at: 128, entries }
}

/// A drive with that map, and each slot filled by its number.
fn filled(fill: impl Fn(usize, &mut [u32])) -> Drive {
    let mut cells = vec![0; MOST_CELLS];
    cells.chunks_exact_mut(SHARE).enumerate().for_each(|(i, part)| fill(i, part));
    Drive { image: slots().bytes(), cells, marks: vec![0; MOST_CELLS] }
}

/// The slots are erased, torn, blank and programmed in turn.
pub fn every_state() -> Drive {
    filled(|i, part| match i % 4 {
        0 => part.fill(u32::MAX),
        1 => {
            program(i, part);
            part[SHARE - 2..].fill(u32::MAX);
        }
        2 => {}
        _ => program(i, part),
    })
}

/// Every slot is erased but the last, which is programmed: the active slot is
/// found after all others.
pub fn last_slot_active() -> Drive {
    filled(|i, part| match i as u32 {
        LAST => program(i, part),
        _ => part.fill(u32::MAX),
    })
}

/// The same with a first partition of this kind that is zeroizable and no slot, its fuses not set.
pub fn first_no_slot(kind: u8) -> Drive {
    let (mut image, mut drive) = (slots(), last_slot_active());
    image.entries[0] = entry(0, SHARE as u16, kind, ZEROIZABLE);
    drive.cells[..SHARE].fill(0);
    Drive { image: image.bytes(), ..drive }
}

/// One partition of this kind in all 2,048 cells; no fuse is set, and none stuck.
pub fn one_partition(kind: u8, flags: u8) -> Drive {
    let entries = vec![entry(0, MOST_CELLS as u16, kind, flags)];
    let image = Image { cells: MOST_CELLS as u16, bound: 60, entries_at: 8, entries };
    Drive { image: image.bytes(), cells: vec![0; MOST_CELLS], marks: vec![0; MOST_CELLS] }
}

/// Every slot is erased but the last, which is torn, its digest alone short: its lowest
/// short pair is found after all its data.
pub fn last_slot_torn() -> Drive {
    filled(|i, part| {
        part.fill(u32::MAX);
        if i as u32 == LAST {
            part[SHARE - TAIL] = 0;
        }
    })
}

/// Fills a slot's data with a seed.
fn program(number: usize, part: &mut [u32]) {
    let mut random = Random::new(number as u64);
    part[..SHARE - TAIL].fill_with(|| random.cell());
}
