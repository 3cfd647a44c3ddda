//! "Active slot and key cache": which slot is active, and whether it gives the
//! HEK, in a drive of a software partition and three slots.

use super::*;
use model::map::Map;
use model::slot::{active_slot, hek_available};

/// A slot's data, digest and indicator pairs.
const ERASED: [u32; 6] = [ALL; 6];
const TORN: [u32; 6] = [1, 0, ALL, ALL, ALL, ALL];
const BLANK: [u32; 6] = [0; 6];
const PROGRAMMED: [u32; 6] = [0, 1, 0, 0, 0, 0];

/// By P4 one fuse of the indicator makes it erased or torn too.
const WEAKLY_ERASED: [u32; 6] = [ALL, ALL, ALL, ALL, 0, 1];
const WEAKLY_TORN: [u32; 6] = [0, 1, 0, 0, 1, 0];

/// "the first slot in map order that is not erased"; "The HEK is available when
/// there is one and it is programmed. A torn slot is active and gives no HEK."
#[test]
fn active_slot_is_the_first_that_is_not_erased() {
    let slot = |first| entry(first, 6, HARDWARE, SLOT_FLAGS);
    let entries = vec![entry(0, 6, SOFTWARE, ZEROIZABLE), slot(6), slot(12), slot(18)];
    let image = Image { cells: 24, bound: 60, entries_at: 8, entries };
    let map = Map::read(&image.bytes()).expect("the map is good");
    let rows = [
        ([PROGRAMMED, PROGRAMMED, PROGRAMMED], (Some(1), true)),
        ([ERASED, PROGRAMMED, PROGRAMMED], (Some(2), true)),
        ([ERASED, ERASED, PROGRAMMED], (Some(3), true)),
        ([ERASED, ERASED, ERASED], (None, false)),
        ([ERASED, TORN, PROGRAMMED], (Some(2), false)),
        ([WEAKLY_ERASED, PROGRAMMED, PROGRAMMED], (Some(2), true)),
        ([WEAKLY_ERASED, ERASED, WEAKLY_ERASED], (None, false)),
        ([ERASED, WEAKLY_TORN, PROGRAMMED], (Some(2), false)),
        ([BLANK, PROGRAMMED, PROGRAMMED], (Some(1), false)),
    ];
    for (slots, expected) in rows {
        // The software partition is programmed, and is no slot all the same.
        let cells = [PROGRAMMED.to_vec(), slots.concat()].concat();
        let answer = (active_slot(&map, &cells), hek_available(&map, &cells));
        assert_eq!(answer, expected, "{slots:X?}");
    }
}
