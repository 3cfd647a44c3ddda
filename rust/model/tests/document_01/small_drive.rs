//! "The small drive": its fields, words and states, and cases 2 to 7. The responses of 2 and 7
//! stand with P8.

use super::*;
use model::map::{broken_rules, Part, Size, Word};
use model::partition::State::{self, Blank, Erased, Programmed, Torn};
use model::{reading, slot, status};

/// A state, the short pairs, and whether the HEK is available: these are the
/// slot's when it has these cells. The software partition stays blank.
fn check_state(cells: [u32; 6], (state, short_pairs, available): (State, u32, bool)) {
    let mut drive = Drive::small();
    drive.cells[..6].copy_from_slice(&cells);
    assert_eq!(reading::states(&drive), Ok(vec![(state, short_pairs), (Blank, 3)]), "{cells:X?}");
    let map = drive.map().expect("the small drive's map is good");
    assert_eq!(slot::hek_available(&map, &drive.cells), available, "{cells:X?}");
}

/// The erasure answers so, and leaves the slot these cells and this state.
fn check(lent: &Lent, call: Erase, answer: Erasure, cells: [u32; 6], state: (State, u32, bool)) {
    erasure::check(lent, call, answer, cells);
    check_state(cells, state);
}

#[test]
fn image_is_the_documents_fields_in_little_endian() {
    let expected = [
        2, 0, 12, 0, 60, 0, 8, 0, // P, C, B, E
        0, 0, 6, 0, 0, 7, 0, 0, // first, n, kind, flags, two zero bytes
        6, 0, 6, 0, 1, 0, 0, 0,
    ];
    assert_eq!(Drive::small().image, expected);
    assert_eq!(broken_rules(&expected), []);
}

/// "A word is a pair in kinds 0 and 2; in kind 1 a data word is one cell". The
/// last cell is past C.
#[test]
fn words_are_pairs_in_the_slot_and_single_data_cells_in_software() {
    let map = Drive::small().map().expect("the small drive's map is good");
    let pair = |partition, part| Some(Word { partition, part, size: Size::Pair });
    let [data, digest, end] = [Part::Data, Part::Digest, Part::Indicator].map(|part| pair(0, part));
    let soft = Some(Word { partition: 1, part: Part::Data, size: Size::Cell });
    let last = pair(1, Part::Digest);
    let words = [data, None, digest, None, end, None, soft, soft, soft, soft, last, None, None];
    assert!((0..13).map(|cell| map.word_at(cell)).eq(words));
}

#[test]
fn slot_is_programmed_and_digest_fuses_alone_leave_it_blank() {
    check_state([1, 0, 0, 0, 0, 0], (Programmed, 3, true));
    check_state([0, 0, ALL, ALL, 0, 0], (Blank, 2, false));
    let output = status::output(&Drive::small().status_input());
    assert_eq!(output, b"part cells state short\n0 6 programmed 3\n1 6 blank 3\nhek 0\n");
}

/// P4: "Erased now means marked with no short pair besides the indicator; torn means marked
/// otherwise; blank and programmed mean not marked." Any one fuse of the indicator marks the slot,
/// and no other.
#[test]
fn one_fuse_of_the_indicator_makes_the_slot_erased_or_torn() {
    for [low, high] in [[1, 0], [1 << 31, 0], [0, 1], [0, 1 << 31], [ALL, ALL << 5]] {
        check_state([ALL, ALL, ALL, ALL, low, high], (Erased, 1, false));
        check_state([ALL, ALL << 4, ALL, ALL << 4, low, high], (Erased, 1, false));
        check_state([ALL, ALL << 5, ALL, ALL, low, high], (Torn, 2, false));
        check_state([ALL, ALL, ALL, ALL << 5, low, high], (Torn, 2, false));
        check_state([0, 0, 0, 0, low, high], (Torn, 3, false));
    }
    check_state([ALL, ALL, ALL, ALL, 0, 0], (Programmed, 1, true));
}

#[test]
fn case_2_fers_burns_every_fuse_of_the_slot() {
    let new = small(&[], &[]);
    check(&new, uncut(0), erased(0, None, 3, 191), [ALL; 6], (Erased, 0, false));
    assert_eq!(fers(0).bytes, [0xD0, 0xFE, 0xFF, 0xFF, 0, 0, 0, 0, 0, 0, 0, 0]);
}

/// Four stuck fuses leave 60 ones in word 0, five leave 59. P4: case 5 "now ends erased with 1
/// short"; the response's chksum is 0 minus 1 minus 4 minus 186, by P8 the fuses that are newly
/// set. With word 0 short too it is torn.
#[test]
fn cases_3_to_5_stuck_fuses_leave_the_slot_erased_or_torn() {
    let stuck = |cell, mark| small(&[], &[(cell, mark)]);
    let word_0 = |high| [ALL, high, ALL, ALL, ALL, ALL];
    let (sixty, fifty_nine) = (word_0(0xFFFF_FFF0), word_0(0xFFFF_FFE0));
    check(&stuck(1, 0x0F), uncut(0), erased(0, None, 3, 187), sixty, (Erased, 0, false));
    check(&stuck(1, 0x1F), uncut(0), erased(1, Some(0), 3, 186), fifty_nine, (Torn, 1, false));
    let indicator = [ALL, ALL, ALL, ALL, 0xFFFF_FFFF, 0xFFFF_FFE0];
    check(&stuck(5, 0x1F), uncut(0), erased(1, Some(4), 3, 186), indicator, (Erased, 1, false));
    assert_eq!(mailbox(&stuck(5, 0x1F), &fers(0)).1.response[..4], [0x41, 0xFF, 0xFF, 0xFF]);
    let (both, left) = (small(&[], &[(1, 0x1F), (5, 0x1F)]), [ALL, !0x1F, ALL, ALL, ALL, !0x1F]);
    check(&both, uncut(0), erased(2, Some(0), 3, 181), left, (Torn, 2, false));
}

/// P4: "in 6 the mask of 59 gives torn, 3 short".
#[test]
fn cases_6_and_7_a_cut_leaves_the_slot_torn() {
    let (new, low_59, low_60) = (small(&[], &[]), u64::MAX >> 5, u64::MAX >> 4);
    let [at_59, at_60] = [0x07FF_FFFF, 0x0FFF_FFFF].map(|high| [1, 0, 0, 0, ALL, high]);
    check(&new, cut(0, 0, low_59), was_cut(1, 59), at_59, (Torn, 3, false));
    check(&new, cut(0, 0, low_60), was_cut(1, 60), at_60, (Torn, 2, false));
    let left = [ALL, 0, 0, 0, ALL, ALL];
    check(&new, cut(0, 1, 0xFFFF_FFFF), was_cut(2, 64 + 31), left, (Torn, 2, false));
    // "FERS again: as case 2", but for what it newly sets.
    let again = small(&[(0, ALL), (4, ALL), (5, ALL)], &[]);
    check(&again, uncut(0), erased(0, None, 3, 96), [ALL; 6], (Erased, 0, false));
}
