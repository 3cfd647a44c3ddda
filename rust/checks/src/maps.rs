//! Generated maps: good ones, and good ones with one thing damaged.

use crate::random::Random;
use model::{entry, Entry, Header, Image, SLOT_FLAGS};
use model::{HARDWARE, LIFE_CYCLE, OLDER_GUIDE, SECRET, SOFTWARE, ZEROIZABLE};

/// The most cells of a map.
pub const MOST_CELLS: usize = 2048;

/// The kinds and flags a good entry may have, without flag 8. Slots stand there more than once,
/// so that drives with several slots are common.
const GOOD_KINDS: [(u8, u8); 11] = [
    (HARDWARE, SLOT_FLAGS),
    (HARDWARE, SLOT_FLAGS),
    (HARDWARE, SLOT_FLAGS),
    (HARDWARE, ZEROIZABLE | SECRET),
    (HARDWARE, SECRET),
    (HARDWARE, ZEROIZABLE),
    (HARDWARE, 0),
    (SOFTWARE, ZEROIZABLE),
    (SOFTWARE, ZEROIZABLE),
    (SOFTWARE, 0),
    (LIFE_CYCLE, 0),
];

/// Values at which a comparison, a parity or a 16-bit sum may go wrong.
const EDGES: [u16; 16] = [0, 1, 2, 3, 4, 5, 6, 7, 32, 33, 64, 65, 2048, 2049, 0xFFFE, 0xFFFF];

/// A map that keeps every rule.
pub fn good(random: &mut Random) -> Image {
    within(random, (1, 16), |count| MOST_CELLS / count)
}

/// A map of a few partitions in some 64 cells.
pub fn small(random: &mut Random) -> Image {
    within(random, (2, 6), |count| 64 / count)
}

/// A map of any number of partitions, each of 16 cells at most.
pub fn compact(random: &mut Random) -> Image {
    within(random, (1, 16), |_| 16)
}

/// A map of so many partitions that keeps every rule; each has room for its share
/// of cells, which is ten or more.
fn within(random: &mut Random, (least, most): (usize, usize), share: fn(usize) -> usize) -> Image {
    let count = random.between(least, most);
    let (share, mut free) = (share(count) / 2 * 2, 0);
    let mut entries = Vec::new();
    for _ in 0..count {
        let made = good_entry(random, free, share);
        free = made.range().end;
        entries.push(made);
    }
    let behind = if random.one_in(2) { 0 } else { random.below(6) };
    let cells = (free + behind).min(MOST_CELLS) as u16;
    let (bound, entries_at) = good_header(random);
    Image { cells, bound, entries_at, entries }
}

/// The largest map: 256 bytes, 16 partitions, 2,048 cells and no gap.
pub fn largest(random: &mut Random) -> Image {
    filled(random, 16)
}

/// The longest partition: all 2,048 cells.
pub fn longest(random: &mut Random) -> Image {
    filled(random, 1)
}

/// So many partitions of one length in all cells.
fn filled(random: &mut Random, count: usize) -> Image {
    let n = MOST_CELLS / count;
    let made = |number: usize, (kind, flags)| entry((number * n) as u16, n as u16, kind, flags);
    let entries = (0..count).map(|number| made(number, good_kind(random))).collect();
    let (bound, _) = good_header(random);
    Image { cells: MOST_CELLS as u16, bound, entries_at: 128, entries }
}

/// The bytes of this map with something damaged. The damage may turn out to break
/// no rule: the model says.
pub fn damaged(random: &mut Random, mut image: Image) -> Vec<u8> {
    if random.one_in(2) {
        damage_field(random, &mut image);
        return image.bytes();
    }
    let mut bytes = image.bytes();
    damage_bytes(random, &mut bytes);
    bytes
}

/// A kind and flags that a good entry may have: a third of the zeroizable ones on the older guide.
fn good_kind(random: &mut Random) -> (u8, u8) {
    let (kind, flags) = random.pick(&GOOD_KINDS);
    let older = flags & ZEROIZABLE != 0 && random.one_in(3);
    (kind, if older { flags | OLDER_GUIDE } else { flags })
}

/// An entry of at most `share` cells, a gap before it included.
fn good_entry(random: &mut Random, free: usize, share: usize) -> Entry {
    let (kind, flags) = good_kind(random);
    let least = if flags & ZEROIZABLE != 0 { 6 } else { 4 };
    let n = match random.below(8) {
        0..=2 => least,
        3..=6 => (least + 2 * random.below(8)).min(share),
        _ => least + 2 * random.below((share - least) / 2 + 1),
    };
    let room = (share - n) / 2;
    let gap = if random.one_in(3) { 2 * random.below(room.min(3) + 1) } else { 0 };
    entry((free + gap) as u16, n as u16, kind, flags)
}

/// A good bound and a good offset of the entries.
fn good_header(random: &mut Random) -> (u16, u16) {
    let (bound, offset) = (random.between(33, 64) as u16, random.between(8, 128) as u16);
    (random.pick(&[33, 60, 60, 64, bound]), random.pick(&[8, 8, 9, 128, offset]))
}

/// Damages one field of a map, or the order of its entries.
pub fn damage_field(random: &mut Random, image: &mut Image) {
    let edge = random.pick(&EDGES);
    let at = random.below(image.entries.len());
    let hurt = &mut image.entries[at];
    match random.below(12) {
        0 => image.cells = edge,
        1 => image.bound = edge,
        2 => image.entries_at = random.pick(&[0, 6, 7, 8, 127, 128, 129, 130]),
        3 => hurt.first = edge,
        4 => hurt.n = edge,
        5 => hurt.first = hurt.first.wrapping_add(random.pick(&[1, 2, 0xFFFE, 0xFFFF])),
        6 => hurt.n = hurt.n.wrapping_add(random.pick(&[1, 2, 0xFFFE, 0xFFFF])),
        7 => hurt.kind = random.below(4) as u8,
        8 => hurt.flags = random.below(32) as u8,
        9 => hurt.zeros[random.below(2)] = random.byte(),
        10 => image.cells = image.cells.wrapping_sub(random.between(1, 8) as u16),
        _ => image.entries.rotate_left(at),
    }
}

/// Turns flag 8 of an entry, where the image has one.
pub fn turn_guide(random: &mut Random, bytes: &mut [u8]) {
    let Some(header) = Header::read(bytes) else { return };
    let entry = random.below(usize::from(header.partitions).max(1));
    if let Some(flags) = bytes.get_mut(usize::from(header.entries_at) + 8 * entry + 5) {
        *flags ^= OLDER_GUIDE;
    }
}

/// Damages one byte of an image, or its end, or puts any bytes in its place.
pub fn damage_bytes(random: &mut Random, bytes: &mut Vec<u8>) {
    let (at, any) = (random.below(bytes.len().max(1)), random.below(300));
    match random.below(7) {
        0..=2 if !bytes.is_empty() => bytes[at] ^= 1 << random.below(8),
        3 if !bytes.is_empty() => bytes[at] = random.byte(),
        4 => bytes.push(random.pick(&[0, 1, 0xFF])),
        5 => *bytes = random.bytes(any),
        _ => bytes.truncate(at),
    }
}
