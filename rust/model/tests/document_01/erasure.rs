//! "Erasing a partition": the order of burns, and where a cut leaves it.

use super::*;
use model::cache::restart;

/// The numbers of the partitions that are erased here, six cells each.
const SLOT: u32 = 0;
const PLAIN: u32 = 1;
const SOFT: u32 = 2;

/// The erasure answers so and leaves its partition these cells. Nothing else
/// changes, except that after a cut "the key cache is empty". What is uncut is
/// asked for by FERS too.
pub fn check(before: &Lent, call: Erase, answer: Erasure, left: [u32; 6]) {
    let mut after = before.clone();
    let first = 6 * call.partition as usize;
    after.drive.cells[first..first + 6].copy_from_slice(&left);
    if call.cut.is_none() {
        check_fers(before, call.partition, answer, &after);
    }
    if matches!(answer, Erasure::Cut { .. }) {
        after.cache = Cache::default();
    }
    assert_eq!(erase(before, call), (answer, after), "{call:?}");
}

/// FERS answers the short pairs, the first short cell and the new fuses, or the refusal.
fn check_fers(before: &Lent, partition: u32, answer: Erasure, after: &Lent) {
    let mut response = before.response.clone();
    let mut reply = Reply::Refused(15);
    if let Erasure::Erased { short_pairs, first_short, new_fuses, .. } = answer {
        let fields = [0, 0, short_pairs, first_short.unwrap_or(0xFFFF_FFFF), new_fuses];
        let bytes = fields.map(u32::to_le_bytes).concat();
        let sum: u32 = bytes.iter().map(|byte| u32::from(*byte)).sum();
        response[..4].copy_from_slice(&sum.wrapping_neg().to_le_bytes());
        response[4..24].copy_from_slice(&bytes);
        reply = Reply::Accepted { length: 24, order: Order::None };
    }
    let after = Lent { response, ..after.clone() };
    assert_eq!(mailbox(before, &fers(partition)), (reply, after), "FERS {partition}");
}

/// "indicator, data words ascending, digest"; "the first k burns are whole, the
/// burn numbered k has the mask (its low 32 bits for a 32-bit word) in place of
/// all ones, nothing follows"; "the burns carried out, k + 1", and by P8 the fuses that they newly
/// set.
#[test]
fn a_cut_leaves_burns_before_k_whole_and_those_after_it_undone() {
    let (mask, high) = (0x8000_0001_0000_FF00, 0xFFFF_FFFF_0000_0000);
    let rows = [
        (SOFT, 0, mask, [0, 0, 0, 0, 0xFF00, 0x8000_0001], 10),
        (SOFT, 1, mask, [0xFF00, 0, 0, 0, ALL, ALL], 64 + 8),
        (SOFT, 2, mask, [ALL, 0xFF00, 0, 0, ALL, ALL], 64 + 32 + 8),
        (SOFT, 3, mask, [ALL, ALL, 0xFF00, 0x8000_0001, ALL, ALL], 64 + 64 + 10),
        (SOFT, 0, high, [0, 0, 0, 0, 0, ALL], 32),
        (SOFT, 1, high, [0, 0, 0, 0, ALL, ALL], 64),
        (SOFT, 2, high, [ALL, 0, 0, 0, ALL, ALL], 64 + 32),
        (SOFT, 3, high, [ALL, ALL, 0, ALL, ALL, ALL], 64 + 64 + 32),
        (PLAIN, 2, mask, [ALL, ALL, 0xFF00, 0x8000_0001, ALL, ALL], 64 + 64 + 10),
        // A mask of 0 or of all ones is a cut all the same.
        (SOFT, 0, 0, [0; 6], 0),
        (SOFT, 3, u64::MAX, [ALL; 6], 192),
    ];
    for (partition, k, mask, left, new) in rows {
        let lent = held(every_sort(&[], &[]), 5);
        check(&lent, cut(partition, k, mask), was_cut(k + 1, new), left);
    }
    let stuck = every_sort(&[(6, 0b0001), (7, 0b1000)], &[(6, 0b0011), (7, 0b0001)]);
    let call = cut(PLAIN, 1, 0x0000_0003_0000_0006);
    check(&stuck, call, was_cut(2, 64 + 2), [0b0101, 0b1010, 0, 0, ALL, ALL]);
}

/// "If the erasure would end before burn k, it runs as uncut."
#[test]
fn a_cut_past_the_end_runs_as_uncut() {
    let lent = held(every_sort(&[], &[]), 5);
    check(&lent, uncut(SOFT), erased(0, None, 4, 192), [ALL; 6]);
    for k in [4, 5, 255, 256, 0x1_0000, ALL - 1, ALL] {
        check(&lent, cut(SOFT, k, 0), erased(0, None, 4, 192), [ALL; 6]);
    }
    let whole = [0, 1, 2, 3, 4, 5].map(|cell| (cell, ALL));
    for call in [uncut(SLOT), cut(SLOT, 3, 0), cut(SLOT, ALL, 0)] {
        check(&small(&[], &[]), call, erased(0, None, 3, 191), [ALL; 6]);
        check(&small(&whole, &[]), call, erased(0, None, 3, 0), [ALL; 6]);
    }
}

/// "Otherwise it goes on through short words"; in kind 1 too, two data cells
/// are one pair. A short indicator is one more, behind the others.
#[test]
fn short_words_do_not_stop_the_erasure_and_are_counted_in_pairs() {
    let marks = [(12, 0b11), (13, 0b111), (15, 0x1F)];
    let (pair, digest) = (every_sort(&[], &marks), every_sort(&[], &marks[2..]));
    let left = [!0b11, !0b111, ALL, !0x1F, ALL, ALL];
    check(&pair, uncut(SOFT), erased(2, Some(12), 4, 192 - 10), left);
    let left = [ALL, ALL, ALL, !0x1F, ALL, ALL];
    check(&digest, uncut(SOFT), erased(1, Some(14), 4, 192 - 5), left);
    let weak = with(&digest, &[], &[(16, ALL), (17, !1)]);
    check(&weak, uncut(SOFT), erased(2, Some(14), 4, 64 + 59 + 1), [ALL, ALL, ALL, !0x1F, 0, 1]);
}

/// P4: "15 is given exactly when no indicator fuse is set after its burn": every one is stuck, and
/// none was set before, so that this burn leaves all as it was. A cut of burn 0 does not ask.
#[test]
fn an_indicator_without_a_set_fuse_stops_the_erasure() {
    let stuck = [(16, ALL), (17, ALL)];
    let lent = held(every_sort(&[(12, 5), (15, 9)], &stuck), 5);
    let as_it_was = [5, 0, 0, 9, 0, 0];
    check(&lent, uncut(SOFT), STOPPED, as_it_was);
    for k in [1, 2, 3, 4, ALL] {
        check(&lent, cut(SOFT, k, u64::MAX), STOPPED, as_it_was);
    }
    check(&lent, cut(SOFT, 0, u64::MAX), was_cut(1, 0), as_it_was);
    let slot = small(&[], &[(4, ALL), (5, ALL)]);
    check(&slot, uncut(SLOT), STOPPED, [1, 0, 0, 0, 0, 0]);
}

/// P4: "Erasure goes on whenever it is marked after the first burn", by one fuse, and "still counts
/// a short indicator". "A mark on a set fuse has no effect."
#[test]
fn an_indicator_with_one_set_fuse_lets_the_erasure_go_on() {
    let indicator = |fuses: [u32; 2], marks: [u32; 2]| {
        every_sort(&[(4, fuses[0]), (5, fuses[1])], &[(4, marks[0]), (5, marks[1])])
    };
    // The indicator's fuses and marks, what its burn leaves, and how many fuses it newly sets.
    let rows = [
        ([0, 0], [!1, ALL], [1, 0], 1),
        ([0, 0], [ALL, !(1 << 31)], [0, 1 << 31], 1),
        ([1, 0], [ALL, ALL], [1, 0], 0),
        ([0, 1 << 31], [ALL, ALL], [0, 1 << 31], 0),
        ([0, 0], [0, 0x1F], [ALL, !0x1F], 59),
        ([0, 0x10], [0, 0x3F], [ALL, !0x2F], 58),
    ];
    for (fuses, marks, [low, high], new) in rows {
        let lent = indicator(fuses, marks);
        let ended = erased(1, Some(4), 3, new + 128);
        check(&lent, uncut(SLOT), ended, [ALL, ALL, ALL, ALL, low, high]);
        let burned = [ALL, ALL, 1, 0, low, high];
        check(&lent, cut(SLOT, 2, 1), was_cut(3, new + 65), burned);
    }
    for (fuse, mark, new) in [(0, 0x0F, 60), (0x10, 0x1F, 59), (ALL, ALL, 32)] {
        let left = [ALL, ALL, ALL, ALL, ALL, fuse | !mark];
        check(&indicator([0, fuse], [0, mark]), uncut(SLOT), erased(0, None, 3, new + 128), left);
    }
}

/// "A restart empties the cache and changes nothing else"
#[test]
fn a_restart_empties_the_cache_and_changes_nothing_else() {
    assert_eq!(restart(&held(small(&[], &[]), 5)), small(&[], &[]));
}
