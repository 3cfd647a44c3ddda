//! P8, "Charge drawn by burning". What it adds to the commands and cases of document 01 and to P7
//! stands with them.

use super::{refused, small, table};
use model::direct::direct;
use model::erasure::erase;
use model::mailbox::mailbox;
use model::{entry, fuse, Answer, Call, Command, Cut, Erase, Erasure, Image, Lent, Mail, Order};
use model::{Reply, Request, Size, Values, SOFTWARE, ZEROIZABLE};

const ALL: u32 = u32::MAX;

/// The small drive with a table, which FERS asks for, and partition 1 zeroizable.
fn drive() -> Lent {
    let mut lent = small(table(&[[5, 1]], 5));
    lent.drive.image[21] = 1;
    lent
}

fn fers(partition: u32) -> Request {
    Request::of(Mail::Fers, &Values { partition, ..Values::default() })
}

fn set_fuses(lent: &Lent) -> u32 {
    lent.drive.cells.iter().map(|cell| cell.count_ones()).sum()
}

/// FERS of the slot answers these fields, all 24 bytes of them, and nothing past them changes.
fn responds(before: &Lent, fields: [u32; 6]) {
    let (reply, after) = mailbox(before, &fers(0));
    assert_eq!(reply, Reply::Accepted { length: 24, order: Order::None });
    let expected = [&fields.map(u32::to_le_bytes).concat(), &before.response[24..]].concat();
    assert_eq!(after.response, expected);
}

/// "every burn reports the number of fuses it newly set": of both halves of a pair, and of a word
/// of one cell the low 32 alone. A fuse that was set is not new, stuck or not, and a stuck one is
/// never set.
#[test]
fn p8_a_burn_reports_the_fuses_that_it_newly_set() {
    // The cells, their marks and the value; what a burn of the pair reports, and of the first cell.
    let rows = [
        ([0, 0], [0, 0], u64::MAX, 64, 32),
        ([0, 0], [0, 0], 0, 0, 0),
        ([0, 0], [0, 0], 0x8000_0000_0000_0000, 1, 0),
        ([ALL, ALL], [0, 0], u64::MAX, 0, 0),
        ([ALL, 0], [0, 0], u64::MAX, 32, 0),
        ([0b0101, 0], [0, 0], 0b1111, 2, 2),
        ([0, 0], [0b0011, ALL], u64::MAX, 30, 30),
        ([0, 0], [ALL, ALL], u64::MAX, 0, 0),
        ([0b0001, 1 << 31], [0b0001, (1 << 31) + 1], u64::MAX, 31 + 30, 31),
    ];
    for (cells, marks, value, pair, cell) in rows {
        for (size, reported) in [(Size::Pair, pair), (Size::Cell, cell)] {
            let burned = fuse::burn_word(&mut cells.clone(), &marks, 0, size, value);
            assert_eq!(burned, reported, "{size:?} {cells:X?} {marks:X?} {value:X}");
        }
    }
}

/// "ZEROIZE and WRITE answer it beside their word"; "In a secret partition WRITE and ZEROIZE do not
/// show it." READ burns nothing.
#[test]
fn p8_write_and_zeroize_answer_it_and_not_in_a_secret_partition() {
    let mut lent = drive();
    (lent.drive.cells[6], lent.drive.marks[6]) = (0b0001, 0b0010);
    let word = |word, new_fuses| Answer::Word { word, new_fuses };
    // In partition 1, then in the slot, whose word 0 is 1 at the start.
    let rows = [
        (Command::Write { cell: 6, value: 0b0111 }, word(0b0101, 1), 1),
        (Command::Write { cell: 6, value: 0b0111 }, word(0b0101, 0), 0),
        (Command::Read { cell: 6 }, word(0b0101, 0), 0),
        (Command::Zeroize { cell: 6 }, word(0xFFFF_FFFD, 29), 29),
        (Command::Zeroize { cell: 10 }, word(u64::MAX, 64), 64),
        (Command::Write { cell: 0, value: 0b0111 }, Answer::Done, 2),
        (Command::Zeroize { cell: 0 }, word(u64::MAX, 0), 61),
    ];
    for (command, expected, newly_set) in rows {
        let (answer, after) = direct(&lent, command);
        assert_eq!(answer, expected, "{command:?}");
        assert_eq!(set_fuses(&after) - set_fuses(&lent), newly_set, "{command:?}");
        lent = after;
    }
    lent.drive.marks[3] = 0x1F;
    assert_eq!(direct(&lent, Command::Zeroize { cell: 2 }).0, Answer::Withheld);
}

/// "FERS carries it as a last field (24 bytes)." "Case 2's response gains 191, and its chksum
/// becomes 0xFFFFFB45. Case 7's last gains 96, with 0xFFFFFBA4." Once all is set, nothing is new.
#[test]
fn p8_cases_2_and_7_gain_191_and_96() {
    let mut lent = drive();
    responds(&lent, [0xFFFF_FB45, 0, 0, 0, 0xFFFF_FFFF, 191]);
    lent.drive.cells[..6].copy_from_slice(&[ALL, 0, 0, 0, ALL, ALL]);
    responds(&lent, [0xFFFF_FBA4, 0, 0, 0, 0xFFFF_FFFF, 96]);
    lent.drive.cells[..6].fill(ALL);
    responds(&lent, [0xFFFF_FC04, 0, 0, 0, 0xFFFF_FFFF, 0]);
}

/// "erasures add it up, cut ones included"; "Over any number of cut and uncut attempts the sum
/// equals set fuses after minus set fuses before."
#[test]
fn p8_attempts_add_up_to_the_set_fuses_after_minus_before() {
    let mut lent = drive();
    // Partition 1: data in cells 6 and 7, digest in 8 and 9, indicator in 10 and 11.
    lent.drive.cells[6..12].copy_from_slice(&[0x0F, 0, 0, 1, 0, 0x10]);
    lent.drive.marks[6..12].copy_from_slice(&[0xFF, 0, 0x3, 0, 0, 0x30]);
    let start = lent.clone();
    // The cut, or none, and what the attempt reports.
    let rows = [
        (Some(Cut { k: 0, mask: 0x0000_003F_0000_000F }), 4 + 4),
        (Some(Cut { k: 1, mask: 0x0000_FFFF_0000_0FFF }), 28 + 26 + 4),
        (Some(Cut { k: 1, mask: 0x0FFF }), 0),
        (Some(Cut { k: 2, mask: 1 << 31 }), 20 + 1),
        (None, 31 + 30 + 31),
        (Some(Cut { k: 4, mask: 0 }), 0),
        (None, 0),
    ];
    for (cut, reported) in rows {
        let (erasure, after) = erase(&lent, Erase { partition: 1, cut });
        let (Erasure::Cut { new_fuses, .. } | Erasure::Erased { new_fuses, .. }) = erasure else {
            panic!("{cut:?}: {erasure:?}")
        };
        assert_eq!(new_fuses, reported, "{cut:?}");
        assert_eq!(set_fuses(&after), set_fuses(&lent) + reported, "{cut:?}");
        lent = after;
    }
    let sum: u32 = rows.iter().map(|(_, reported)| reported).sum();
    assert_eq!(set_fuses(&lent), set_fuses(&start) + sum);
    // 192 fuses: 6 were set, and 4, 2 and 1 of the others are stuck.
    assert_eq!(sum, 192 - 6 - 7);
}

/// "15 reports 0, as its burn sets nothing": no refusal has a number, and none sets a fuse.
#[test]
fn p8_15_sets_nothing_and_has_no_number() {
    let mut lent = drive();
    lent.drive.marks[4..6].fill(ALL);
    let stopped = Erasure::Refused { number: 15, burns: 1 };
    for cut in [None, Some(Cut { k: 1, mask: u64::MAX })] {
        assert_eq!(erase(&lent, Erase { partition: 0, cut }), (stopped, lent.clone()));
    }
    refused(&lent, &Call::Mailbox(fers(0)), &[15]);
}

/// The most that a call can report: every fuse of 2,048 cells, which is more than 16 bits hold.
#[test]
fn p8_an_erasure_of_all_2048_cells_reports_65536() {
    let mut lent = drive();
    let entries = vec![entry(0, 2048, SOFTWARE, ZEROIZABLE)];
    lent.drive.image = Image { cells: 2048, bound: 60, entries_at: 8, entries }.bytes();
    (lent.drive.cells, lent.drive.marks) = (vec![0; 2048], vec![0; 2048]);
    responds(&lent, [0xFFFF_FC03, 0, 0, 0, 0xFFFF_FFFF, 65_536]);
}
