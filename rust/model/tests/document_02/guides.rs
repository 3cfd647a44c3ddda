//! P7, "Boards on the older guide".

use super::small;
use model::direct::direct;
use model::map::{broken_rules, Rule};
use model::{entry, Answer, Command, Image, Lent, Table, HARDWARE, LIFE_CYCLE, SOFTWARE};
use Answer::{Withheld, Word};

/// A slot, a software and a hardware partition with these flags, bound 60, no fuse set, and this
/// mark on a cell.
fn drive(flags: [u8; 3], (cell, mark): (usize, u32)) -> Lent {
    let mut lent = small(Table::default());
    let kinds = [HARDWARE, SOFTWARE, HARDWARE];
    let made = |(first, (kind, flags))| entry(first, 6, kind, flags);
    let entries = [0, 6, 12].into_iter().zip(kinds.into_iter().zip(flags)).map(made).collect();
    lent.drive.image = Image { cells: 18, bound: 60, entries_at: 8, entries }.bytes();
    (lent.drive.cells, lent.drive.marks) = (vec![0; 18], vec![0; 18]);
    lent.drive.marks[cell] = mark;
    lent
}

/// "Refusals: 1 for flag 8 exactly on a partition that is not zeroizable."
#[test]
fn flag_8_is_refused_exactly_on_a_partition_that_is_not_zeroizable() {
    let rules = |kind, flags| {
        let entries = vec![entry(0, 6, kind, flags)];
        broken_rules(&Image { cells: 12, bound: 60, entries_at: 8, entries }.bytes())
    };
    for (kind, flags) in [(HARDWARE, 9), (HARDWARE, 11), (HARDWARE, 15), (SOFTWARE, 9)] {
        assert_eq!(rules(kind, flags), [], "{kind} {flags}");
    }
    for (kind, flags) in [(HARDWARE, 8), (HARDWARE, 10), (SOFTWARE, 8), (LIFE_CYCLE, 8)] {
        assert_eq!(rules(kind, flags), [Rule::OlderGuideIsZeroizable], "{kind} {flags}");
    }
    // "Life cycle is never zeroizable", with flag 8 or without.
    assert_eq!(rules(LIFE_CYCLE, 9), [Rule::LifeCycleNotZeroizable]);
}

/// Document 01's ZEROIZE without the flag; with it "the answer is all ones at the word's width,
/// stuck fuses or not. Withholding stays." The fuses are the same, and by P8 how many of them are
/// new: "only the answered word depends on the flag".
#[test]
fn zeroize_on_the_older_guide_answers_all_ones_and_burns_the_same() {
    let pair = |zeros: u64| Some(u64::MAX - zeros);
    // The word's first cell, the mark on it, the words told on the newer and on the older guide,
    // and the new fuses that are told with both.
    let rows = [
        (0, 0, pair(0), pair(0), 0),
        (0, 0x0F, pair(0x0F), pair(0), 0),
        (0, 0x1F, None, None, 0),
        (4, 0x1F, None, None, 0),
        (6, 0, Some(0xFFFF_FFFF), Some(0xFFFF_FFFF), 32),
        (6, 0x1F, Some(0xFFFF_FFE0), Some(0xFFFF_FFFF), 27),
        (7, u32::MAX, Some(0), Some(0xFFFF_FFFF), 0),
        (8, 0x1F, pair(0x1F), pair(0), 59),
        (12, u32::MAX, pair(0xFFFF_FFFF), pair(0), 32),
    ];
    for (cell, mark, newer, older, new_fuses) in rows {
        let told = |word: Option<u64>| word.map_or(Withheld, |word| Word { word, new_fuses });
        let [newer_board, older_board] =
            [[7, 1, 1], [15, 9, 9]].map(|flags| drive(flags, (cell, mark)));
        let zeroize = |board| direct(board, Command::Zeroize { cell: cell as u32 });
        let [(one, after), (other, older_after)] = [&newer_board, &older_board].map(zeroize);
        assert_eq!((one, other), (told(newer), told(older)), "{cell} {mark:X}");
        assert_eq!(after.drive.cells[cell], !mark, "{cell} {mark:X}");
        assert_eq!(after.drive.cells, older_after.drive.cells, "{cell} {mark:X}");
    }
}
