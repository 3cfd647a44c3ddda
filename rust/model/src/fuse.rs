//! Document 01, "Burning and counting": single burns and the ones of a pair; document 02, P8: what
//! a burn newly sets.

use crate::map::Size;

/// "Burning and counting": "A burn of value v leaves each fuse that was set,
/// sets each fuse of v not marked stuck, and does nothing else." A word of one
/// cell takes the low 32 bits of the value; of a pair the low half goes to its first cell ("low
/// half first", "The map of the fuses"). P8: "every burn reports the number of fuses it newly set".
pub fn burn_word(cells: &mut [u32], marks: &[u32], first: usize, size: Size, value: u64) -> u32 {
    let before = word(cells, first, size);
    cells[first] |= value as u32 & !marks[first];
    if size == Size::Pair {
        cells[first + 1] |= (value >> 32) as u32 & !marks[first + 1];
    }
    (word(cells, first, size) & !before).count_ones()
}

/// "The map of the fuses": what a word holds, of a pair the "low half first".
pub fn word(cells: &[u32], first: usize, size: Size) -> u64 {
    match size {
        Size::Cell => u64::from(cells[first]),
        Size::Pair => u64::from(cells[first]) + (u64::from(cells[first + 1]) << 32),
    }
}

/// "Burning and counting": a pair's "number of ones".
pub fn ones(pair: [u32; 2]) -> u32 {
    pair[0].count_ones() + pair[1].count_ones()
}

/// "Burning and counting": "A pair is short when its number of ones is below B."
pub fn short(pair: [u32; 2], bound: u64) -> bool {
    u64::from(ones(pair)) < bound
}
