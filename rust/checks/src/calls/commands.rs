//! Generated direct commands and erasures, most of them on words and partitions that are there.

use crate::random::Random;
use model::erasure::order;
use model::{fuse, Command, Cut, Drive, Entry, Map, Part, Size};

/// A WRITE, most of them of a value made from what the word holds.
pub fn write(random: &mut Random, drive: &Drive) -> Command {
    let (cell, any) = (cell(random, drive), random.bits());
    let word = drive.map_with_cells().and_then(|map| map.word_at(cell as usize));
    let value = match word {
        Some(word) => value(random, fuse::word(&drive.cells, cell as usize, word.size), word.size),
        None => random.pick(&[0, 1, u64::MAX, any]),
    };
    Command::Write { cell, value }
}

/// A value for a word that holds `set`: one that keeps it, one that lacks a
/// set fuse, one over 32 bits, or several of these at once. Some add to half of
/// a pair only, and so leave words half written.
fn value(random: &mut Random, set: u64, size: Size) -> u64 {
    let one = 1 << random.below(64);
    let more = random.bits() & random.bits();
    let (low, high) = (more & 0xFFFF_FFFF, more >> 32 << 32);
    let mut value = set | random.pick(&[0, one, more, low, high]);
    if size == Size::Cell && !random.one_in(4) {
        value &= 0xFFFF_FFFF;
    }
    if random.one_in(4) {
        let lowest = set & set.wrapping_neg();
        value &= !random.pick(&[lowest, lowest, one, more, 0xFFFF_FFFF, u64::MAX]);
    }
    value
}

/// A cell: mostly one that starts a word, now and then one step further, which is
/// the high half of a pair or the next software cell, or any other.
pub fn cell(random: &mut Random, drive: &Drive) -> u32 {
    match drive.map() {
        Some(map) if !random.one_in(12) => {
            cell_of_a_word(random, &map) + u32::from(random.one_in(16))
        }
        _ => random.around(drive.cells.len()),
    }
}

/// Data more often than the digest, and that more often than the indicator,
/// which ends most of what a partition can do.
fn cell_of_a_word(random: &mut Random, map: &Map) -> u32 {
    let entry = random.pick(map.entries());
    let words: Vec<usize> = entry.range().filter(|cell| map.word_at(*cell).is_some()).collect();
    let part = random.pick(&[Part::Data, Part::Data, Part::Data, Part::Data, Part::Digest]);
    let part = if random.one_in(12) { Part::Indicator } else { part };
    let is_there = |cell: &usize| map.word_at(*cell).map(|word| word.part) == Some(part);
    let fitting: Vec<usize> = words.iter().copied().filter(is_there).collect();
    random.pick(if fitting.is_empty() { &words } else { &fitting }) as u32
}

/// A partition: mostly one that is zeroizable, now and then any other, one that
/// is not there, or one that is another in fewer bits.
pub fn partition(random: &mut Random, drive: &Drive) -> u32 {
    let map = drive.map();
    let entries: &[Entry] = map.as_ref().map_or(&[], |map| map.entries());
    if entries.is_empty() || random.one_in(8) {
        return random.around(entries.len());
    }
    let zeroizable = (0..).zip(entries).filter(|(_, entry)| entry.zeroizable());
    let fitting: Vec<u32> = zeroizable.map(|(number, _)| number).collect();
    if fitting.is_empty() || random.one_in(8) {
        random.below(entries.len()) as u32
    } else {
        random.pick(&fitting)
    }
}

/// A cut of this partition's erasure: at any of its burns, the first more often
/// than the others, or past the last one.
pub fn cut_of(random: &mut Random, drive: &Drive, partition: u32) -> Cut {
    let map = drive.map();
    let burns = map.as_ref().map_or(0, |map| order(map, partition as usize).len());
    let bound = map.map_or(60, |map| map.bound() as u32);
    let (inside, last) = (random.below(burns.max(1)) as u32, (burns as u32).saturating_sub(1));
    let past = burns as u32 + random.pick(&[0, 0, 1, 2, 64]);
    let around = random.around(burns);
    let k = random.pick(&[0, 0, 0, 1, 1, inside, inside, inside, last, last, past, around]);
    Cut { k, mask: mask(random, bound) }
}

/// No fuse, all, the low ones up to any number or around the bound, a single
/// one, half of them, or any.
fn mask(random: &mut Random, bound: u32) -> u64 {
    let (any, single) = (random.bits(), 1 << random.below(64));
    let (low, near) = (random.below(65) as u32, bound - 1 + random.below(2) as u32);
    let around = [low_bits(low), low_bits(near), low_bits(near).rotate_left(low), single, !single];
    let others = [0, u64::MAX, 0xFFFF_FFFF, 0xFFFF_FFFF_0000_0000, any];
    random.pick(&[around, others].concat())
}

/// A mask of so many low bits, 64 at most.
pub fn low_bits(count: u32) -> u64 {
    u64::MAX.checked_shr(64 - count).unwrap_or(0)
}
