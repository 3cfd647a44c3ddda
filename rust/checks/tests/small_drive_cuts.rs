//! Document 01, "The small drive": every cut of the slot's erasure, at every burn and past the
//! last one, with every single fuse and every number of low fuses burned, on the drives of cases 2
//! to 5, and where every fuse of the indicator is stuck, or all but one. What follows a cut is played
//! as a history, so that every clause of demand 3 is checked, and every call is compared with the
//! model.

use checks::calls::commands::low_bits;
use checks::calls::requests;
use checks::histories::{all_hold, Attempt, History};
use checks::lent;
use checks::small::{self, INDICATOR_STUCK, SLOT};
use model::{Call, Cut, Erase};
use sciambrunola::BLOCK_BYTES;

/// Stuck fuses, by cells and their marks: none; cases 3, 4 and 5; the indicator's.
const STUCK: [&[(usize, u32)]; 6] =
    [&[], &[(1, 0x0F)], &[(1, 0x1F)], &[(5, 0x1F)], INDICATOR_STUCK, &[(4, u32::MAX), (5, !0x100)]];

/// The slot's erasure has burns 0 to 2.
const KS: [u32; 8] = [0, 1, 2, 3, 4, 256, 0x1_0000, u32::MAX];

fn masks() -> impl Iterator<Item = u64> {
    (0..64).map(|fuse| 1 << fuse).chain((0..=64).map(low_bits))
}

fn attempt(call: Call) -> Attempt {
    Attempt { call, buffers: (vec![0xB1; BLOCK_BYTES], vec![0xA5; 44]) }
}

/// What is asked for after, or before, this cut.
fn lists(cut: Cut) -> Vec<Vec<Attempt>> {
    let erase = |cut| attempt(Call::Erase(Erase { partition: SLOT, cut }));
    let (cut, fers) = (|| erase(Some(cut)), || attempt(Call::Mailbox(requests::fers(SLOT))));
    let restart = || attempt(Call::Restart);
    vec![
        vec![cut(), erase(None), cut()],
        vec![cut(), restart(), fers(), fers()],
        vec![cut(), cut(), erase(Some(Cut { k: 0, mask: 0 })), fers(), erase(None)],
        vec![erase(None), cut(), restart(), erase(None)],
    ]
}

#[test]
fn every_cut_of_the_small_drive_keeps_demand_3_and_is_the_models() {
    let mut histories = Vec::new();
    for marks in STUCK {
        for cut in KS.into_iter().flat_map(|k| masks().map(move |mask| Cut { k, mask })) {
            let start = small::stuck(marks).drive;
            let of = |attempts| {
                let (start, table) = (start.clone(), lent::table());
                History { start, table, partition: SLOT, attempts }
            };
            histories.extend(lists(cut).into_iter().map(of));
        }
    }
    assert_eq!(histories.len(), 6 * 8 * 129 * 4);
    all_hold(histories.len(), |number| histories[number].clone());
}
