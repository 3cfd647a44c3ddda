//! "Direct commands", on the drive with a partition of each sort. By P8 a word is told with the
//! fuses that the command newly set, "In a secret partition" without.

use super::*;
use Answer::{Done, Refused, Withheld};

/// The first cells of the drive's partitions.
const SLOT: u32 = 0;
const PLAIN: u32 = 6;
const SOFT: u32 = 12;
const CYCLE: u32 = 18;
const SEALED: u32 = 22;

fn word(word: u64, new_fuses: u32) -> Answer {
    Answer::Word { word, new_fuses }
}

/// The command is answered so, and changes these cells and nothing else.
fn check(before: &Lent, command: Command, answer: Answer, changed: Cells) {
    assert_eq!(direct(before, command), (answer, with(before, changed, &[])), "{command:?}");
}

/// "An even cell and the next form a pair, low half first"; "in kind 1 a data
/// word is one cell, digest and indicator are pairs".
#[test]
fn read_answers_the_word() {
    let mut lent = every_sort(&[], &[]);
    lent.drive.cells = (100..128).collect();
    check(&lent, read(PLAIN), word((107 << 32) + 106, 0), &[]);
    check(&lent, read(PLAIN + 4), word((111 << 32) + 110, 0), &[]);
    check(&lent, read(SOFT), word(112, 0), &[]);
    check(&lent, read(SOFT + 1), word(113, 0), &[]);
    check(&lent, read(SOFT + 2), word((115 << 32) + 114, 0), &[]);
    check(&lent, read(CYCLE), word((119 << 32) + 118, 0), &[]);
    // "Every word of a secret partition is refused (8)."
    for cell in [SLOT, SLOT + 2, SLOT + 4, SEALED, SEALED + 2] {
        check(&lent, read(cell), Refused(8), &[]);
    }
}

/// "the cell starts no word": high halves of pairs, the gap, and past C.
#[test]
fn cells_that_start_no_word_are_refused_with_7() {
    for cell in [1, 3, 5, 7, 15, 19, 23, 26, 27, 28, 29, 2048, 0x1_0000, 0x8000_0000, ALL] {
        for command in [read(cell), write(cell, 0), zeroize(cell)] {
            check(&every_sort(&[], &[]), command, Refused(7), &[]);
        }
    }
}

/// "WRITE burns a data word." "Answer: the word as it now stands, or done in a
/// secret partition." "A mark on a set fuse has no effect."
#[test]
fn write_burns_a_data_word() {
    let (lent, value) = (every_sort(&[], &[]), 0x8765_4321_0000_00FF);
    check(&lent, write(PLAIN, value), word(value, 8 + 13), &[(6, 0xFF), (7, 0x8765_4321)]);
    check(&lent, write(SLOT, value), Done, &[(0, 0xFF), (1, 0x8765_4321)]);
    check(&lent, write(SEALED, value), Done, &[(22, 0xFF), (23, 0x8765_4321)]);
    check(&lent, write(SOFT, 0xFF), word(0xFF, 8), &[(12, 0xFF)]);
    check(&lent, write(SOFT, 0xFFFF_FFFF), word(0xFFFF_FFFF, 32), &[(12, ALL)]);
    let stuck = every_sort(&[(6, 0b001)], &[(6, 0b011)]);
    check(&stuck, write(PLAIN, 0b111), word(0b101, 1), &[(6, 0b101)]);
    // "Refused (8): digest (in kind 1 this is ours), indicator, life cycle, [...]
    // a value over 32 bits for a 32-bit word."
    for cell in [PLAIN + 2, PLAIN + 4, SOFT + 2, SOFT + 4, CYCLE] {
        check(&lent, write(cell, 1), Refused(8), &[]);
    }
    check(&lent, write(SOFT, 0x1_0000_0000), Refused(8), &[]);
    // "Refused (9): the value lacks a set fuse."
    let (set, kept) = (every_sort(&[(7, 0x8000_0000), (12, 1)], &[]), 0x8000_0000_0000_0001);
    check(&set, write(PLAIN, u64::MAX >> 1), Refused(9), &[]);
    check(&set, write(SOFT, 0xFFFF_FFFE), Refused(9), &[]);
    check(&set, write(PLAIN, kept), word(kept, 1), &[(6, 1)]);
}

/// P4: "WRITE is refused (8) on a marked partition": a zeroizable one whose "indicator has at
/// least one set fuse", whichever that is, and whatever is set or stuck elsewhere.
#[test]
fn one_fuse_of_its_indicator_keeps_a_partition_from_write() {
    for [low, high] in [[1, 0], [1 << 31, 0], [0, 1], [0, 1 << 31], [ALL, ALL << 5], [ALL; 2]] {
        let set = |first: usize| every_sort(&[(first, low), (first + 1, high)], &[]);
        check(&set(4), write(SLOT, 1), Refused(8), &[]);
        check(&set(10), write(PLAIN, 1), Refused(8), &[]);
        check(&set(16), write(SOFT, 1), Refused(8), &[]);
        // Another one's indicator, the digest, and the last pair where that is the digest.
        check(&set(4), write(PLAIN, 1), word(1, 1), &[(6, 1)]);
        check(&set(8), write(PLAIN, 1), word(1, 1), &[(6, 1)]);
        check(&set(24), write(SEALED, 1), Done, &[(22, 1)]);
    }
    check(&every_sort(&[], &[(10, ALL), (11, ALL)]), write(PLAIN, 1), word(1, 1), &[(6, 1)]);
}

/// "ZEROIZE burns all ones into any word of a zeroizable partition, else 8."
#[test]
fn zeroize_burns_any_word_of_a_zeroizable_partition() {
    let lent = every_sort(&[], &[]);
    // The first three are the slot's, which is secret.
    for cell in [0, 2, 4, 6, 8, 10, 14, 16] {
        let both = [(cell, ALL), (cell + 1, ALL)];
        let told = if cell < 6 { 0 } else { 64 };
        check(&lent, zeroize(cell as u32), word(u64::MAX, told), &both);
    }
    check(&lent, zeroize(SOFT), word(0xFFFF_FFFF, 32), &[(12, ALL)]);
    for cell in [CYCLE, CYCLE + 2, SEALED, SEALED + 2] {
        check(&lent, zeroize(cell), Refused(8), &[]);
    }
    // "the word as it now stands; in a secret partition only if its ones reach B,
    // otherwise withheld": four stuck fuses leave 60 ones, five leave 59.
    for cell in [0, 2, 4] {
        let stuck = |mark| every_sort(&[], &[(cell + 1, mark)]);
        let left = |high| [(cell, ALL), (cell + 1, high)];
        let (command, shown) = (zeroize(cell as u32), word(0xFFFF_FFF0_FFFF_FFFF, 0));
        check(&stuck(0x0F), command, shown, &left(0xFFFF_FFF0));
        check(&stuck(0x1F), command, Withheld, &left(0xFFFF_FFE0));
    }
    let not_secret = every_sort(&[], &[(6, ALL), (7, ALL), (12, ALL)]);
    check(&not_secret, zeroize(PLAIN), word(0, 0), &[]);
    check(&not_secret, zeroize(SOFT), word(0, 0), &[]);
}

/// "WRITE, ZEROIZE and erasure on a slot are refused (10) while any place is
/// held", and nothing else is.
#[test]
fn only_changes_of_a_slot_are_refused_with_10() {
    for place in 0..16 {
        let lent = held(every_sort(&[], &[]), place);
        check(&lent, write(SLOT, 1), Refused(10), &[]);
        check(&lent, zeroize(SLOT + 4), Refused(10), &[]);
        check(&lent, read(SLOT), Refused(8), &[]);
        check(&lent, write(SEALED, 1), Done, &[(22, 1)]);
        check(&lent, write(PLAIN, 1), word(1, 1), &[(6, 1)]);
        let refused = (Erasure::Refused { number: 10, burns: 0 }, lent.clone());
        assert_eq!(erase(&lent, uncut(0)), refused);
        assert_eq!(erase(&lent, cut(0, 0, 0)), refused);
        assert_eq!(erase(&lent, uncut(2)).0, erased(0, None, 4, 192));
    }
}
