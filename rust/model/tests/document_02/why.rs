//! P1, "Tell the desk why", with what P4 changes of it. The lines of the program `why` are ours.

use model::erasure::{erase, Cut, Erase};
use model::{entry, why, Drive, Image, Lent, Reason};
use model::{HARDWARE, SECRET, SLOT_FLAGS, ZEROIZABLE};
use Reason::{AllErased, Available, Blank, NoSlot, Torn};

/// A cell with every fuse set.
const ALL: u32 = u32::MAX;

/// A slot's data, digest and indicator pairs. 62 ones are not short under the bound 62.
const ERASED: [u32; 6] = [ALL; 6];
const JUST_ERASED: [u32; 6] = [ALL, ALL << 2, ALL >> 2, ALL, !1, !1];
const WEAKLY_ERASED: [u32; 6] = [ALL, ALL, ALL, ALL, 0, 1];
const BLANK: [u32; 6] = [0, 0, ALL, ALL, 0, 0];
const PROGRAMMED: [u32; 6] = [0, 1, 0, 0, 0, 0];

/// Slots of six cells each, one behind the other, in cells that hold this; bound 62.
fn slots(cells: &[[u32; 6]]) -> Drive {
    let slot = |number| entry(6 * number, 6, HARDWARE, SLOT_FLAGS);
    let entries = (0..cells.len() as u16).map(slot).collect();
    let cells = cells.concat();
    let image = Image { cells: cells.len() as u16, bound: 62, entries_at: 8, entries };
    Drive { image: image.bytes(), marks: vec![0; cells.len()], cells }
}

/// "The small drive" after an erasure of its slot, cut or not, with this mark on a cell.
fn after(cut: Option<Cut>, (cell, mark): (usize, u32)) -> Drive {
    let mut drive = Drive::small();
    drive.marks[cell] = mark;
    erase(&Lent { drive, ..Lent::default() }, Erase { partition: 0, cut }).1.drive
}

/// The small drive with something changed.
fn small(change: impl Fn(&mut Drive)) -> Drive {
    let mut drive = Drive::small();
    change(&mut drive);
    drive
}

/// What has happened, the drive, the reason, and the line after `hek `.
type Row = (&'static str, Drive, Reason, &'static str);

fn on_the_small_drive() -> Vec<Row> {
    let [low_59, low_60] = [5, 4].map(|zeros| Some(Cut { k: 0, mask: u64::MAX >> zeros }));
    let (none, seed_whole) = ((0, 0), Torn { partition: 0, cell: 0, ones: 1 });
    let at_59 = "none: the active slot, partition 0, is torn: the pair at cell 0 has 59 of 64 \
                 fuses set, at least 60 are needed";
    let at_1 = "none: the active slot, partition 0, is torn: the pair at cell 0 has 1 of 64 \
                fuses set, at least 60 are needed";
    let blank = "none: the active slot, partition 0, is blank: it holds no seed";
    // Byte 13 has the flags of entry 0.
    let no_slot = small(|drive| drive.image[13] = ZEROIZABLE | SECRET);
    vec![
        ("as it stands", Drive::small(), Available, "available"),
        ("case 2", after(None, none), AllErased, "none: every slot is erased"),
        ("case 3", after(None, (1, 0x0F)), AllErased, "none: every slot is erased"),
        ("case 4", after(None, (1, 0x1F)), Torn { partition: 0, cell: 0, ones: 59 }, at_59),
        ("case 5", after(None, (5, 0x1F)), AllErased, "none: every slot is erased"),
        ("case 6, low 59 bits", after(low_59, none), seed_whole, at_1),
        ("case 6, low 60 bits", after(low_60, none), seed_whole, at_1),
        ("fresh", small(|drive| drive.cells[0] = 0), Blank { partition: 0 }, blank),
        ("no slot", no_slot, NoSlot, "none: the map has no slot"),
    ]
}

/// "the first that is not erased"; a torn slot's first short pair is its lowest, in the cells
/// of the whole array. P4: "P1 passes over the indicator when it names a short pair."
fn on_slots() -> Vec<Row> {
    // 61 ones in the digest; 61 in the data and none in the digest. No indicator is short but
    // that of one fuse.
    let [digest, weak] = [[ALL, ALL], [1, 0]].map(|[i, j]| [ALL, ALL, ALL << 3, ALL, i, j]);
    let both = [ALL, ALL >> 3, 0, 0, ALL, ALL >> 2];
    let at_2 = "none: the active slot, partition 0, is torn: the pair at cell 2 has 61 of 64 \
                fuses set, at least 62 are needed";
    let at_12 = "none: the active slot, partition 2, is torn: the pair at cell 12 has 61 of 64 \
                 fuses set, at least 62 are needed";
    let blank = "none: the active slot, partition 1, is blank: it holds no seed";
    let at_digest = Torn { partition: 0, cell: 2, ones: 61 };
    let [digest, weak] = [digest, weak].map(|first| slots(&[first, PROGRAMMED]));
    let third = slots(&[ERASED, JUST_ERASED, both]);
    vec![
        ("torn at the digest alone", digest, at_digest, at_2),
        ("torn at the digest, the indicator short", weak, at_digest, at_2),
        ("two erased, then torn", third, Torn { partition: 2, cell: 12, ones: 61 }, at_12),
        ("erased, then blank", slots(&[ERASED, BLANK, PROGRAMMED]), Blank { partition: 1 }, blank),
        ("erased, then programmed", slots(&[ERASED, PROGRAMMED, BLANK]), Available, "available"),
        ("all erased", slots(&[ERASED, JUST_ERASED]), AllErased, "none: every slot is erased"),
        ("weakly", slots(&[WEAKLY_ERASED, ERASED]), AllErased, "none: every slot is erased"),
    ]
}

/// "the map has no slot, it has some and all are erased, the active slot is blank, or it is
/// torn; both with the partition, torn also with its first short pair and that pair's ones".
#[test]
fn p1_each_reason_is_given_when_it_holds_and_none_when_the_hek_is_available() {
    for (name, drive, reason, line) in [on_the_small_drive(), on_slots()].concat() {
        assert_eq!(why::why(&drive), Ok(reason), "{name}");
        let output = why::output(&drive.status_input());
        assert_eq!(String::from_utf8_lossy(&output), format!("hek {line}\n"), "{name}");
    }
}

/// "Refusals: 1, 2." The program's are the status program's: 2 too where the input goes on.
#[test]
fn p1_1_is_given_before_2() {
    let bad = |drive: &mut Drive| drive.image[4] = 32; // B
    let short = |drive: &mut Drive| drive.marks.truncate(11);
    let both = small(|drive| {
        bad(drive);
        short(drive);
    });
    let long = small(|drive| drive.cells.push(0));
    for (drive, number) in [(small(bad), 1), (small(short), 2), (both, 1), (long, 2)] {
        assert_eq!(why::why(&drive), Err(number));
        assert_eq!(why::output(&drive.status_input()), format!("refused {number}\n").into_bytes());
    }
}
