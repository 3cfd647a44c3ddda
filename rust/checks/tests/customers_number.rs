//! The customer's number: 59 of 64 where the bound is 60, in a partition of
//! 1,024 fuses. At 60 the word passes, at 59 it does not, but for the indicator: by
//! document 02, P4, one fuse of it is enough.

use checks::programs::both;
use model::{entry, Drive, Image, HARDWARE, SLOT_FLAGS};

const INDICATOR: usize = 30;

/// Pairs with 60 ones, 59, 1 and none.
const AT_60: [u32; 2] = [u32::MAX, u32::MAX << 4];
const AT_59: [u32; 2] = [u32::MAX, u32::MAX << 5];
const AT_1: [u32; 2] = [0, 1];
const AT_0: [u32; 2] = [0, 0];

/// What `status` and `why` print for one slot of 32 cells, bound 60, all ones but for
/// these pairs: the status program's head, these lines, and then the line of `why`.
fn check(pairs: &[(usize, [u32; 2])], lines: &str, reason: &str) {
    let slot = entry(0, 32, HARDWARE, SLOT_FLAGS);
    let image = Image { cells: 32, bound: 60, entries_at: 8, entries: vec![slot] };
    let mut cells = vec![u32::MAX; 32];
    pairs.iter().for_each(|(first, pair)| cells[*first..first + 2].copy_from_slice(pair));
    let drive = Drive { image: image.bytes(), cells, marks: vec![0; 32] };
    let expected = [&format!("part cells state short\n{lines}"), reason];
    assert_eq!(both(&drive.status_input()), expected, "{pairs:X?}");
}

const ALL_ERASED: &str = "hek none: every slot is erased\n";

#[test]
fn one_pair_of_59_makes_the_partition_torn_and_one_of_60_leaves_it_erased() {
    for pair in (0..INDICATOR).step_by(2) {
        let torn = format!(
            "hek none: the active slot, partition 0, is torn: the pair at cell {pair} has 59 \
             of 64 fuses set, at least 60 are needed\n"
        );
        check(&[(pair, AT_59)], "0 32 torn 1\nhek none\n", &torn);
        check(&[(pair, AT_60)], "0 32 erased 0\nhek none\n", ALL_ERASED);
        for indicator in [AT_59, AT_1] {
            let weak = |at| [(pair, at), (INDICATOR, indicator)];
            check(&weak(AT_59), "0 32 torn 2\nhek none\n", &torn);
            check(&weak(AT_60), "0 32 erased 1\nhek none\n", ALL_ERASED);
        }
    }
}

#[test]
fn an_indicator_of_59_leaves_the_partition_erased_and_one_of_0_the_seed_in_use() {
    check(&[(INDICATOR, AT_60)], "0 32 erased 0\nhek none\n", ALL_ERASED);
    check(&[(INDICATOR, AT_59)], "0 32 erased 1\nhek none\n", ALL_ERASED);
    check(&[(INDICATOR, AT_1)], "0 32 erased 1\nhek none\n", ALL_ERASED);
    check(&[(INDICATOR, AT_0)], "0 32 programmed 1\nhek 0\n", "hek available\n");
}
