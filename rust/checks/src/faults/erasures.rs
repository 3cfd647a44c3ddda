//! Faults of erasures, cut ones among them: in what they leave, and in what they say.

use super::set;
use crate::layout::Layout;
use model::Erasure::{Cut, Erased, Refused};
use model::{Awaited, Erase, Erasure, Lent, Place, Table};
use std::ops::Range;

/// What is said of an erasure with this fault, and what it left is changed.
pub(super) fn erased(
    fault: &str,
    Erase { partition, cut }: Erase,
    right: Erasure,
    before: &Lent,
    lent: &mut Lent,
) -> Erasure {
    let partition = Layout::of(&before.drive, partition);
    leave(fault, right, partition.as_ref(), &before.drive.cells, lent);
    let cells = [&before.drive.cells[..], &lent.drive.cells];
    say(fault, right, partition.as_ref(), cut.is_some(), cells)
}

fn cells_of(partition: Option<&Layout>) -> Range<usize> {
    partition.map_or(0..0, |partition| partition.range.clone())
}

fn is_weak(partition: Option<&Layout>, cells: &[u32]) -> bool {
    partition.map_or(false, |partition| partition.weakly_marked(cells))
}

fn leave(fault: &str, right: Erasure, partition: Option<&Layout>, before: &[u32], lent: &mut Lent) {
    let (Range { start, end }, cells) = (cells_of(partition), &mut lent.drive.cells);
    match (fault, right) {
        ("a cut at the indicator burns data", Cut { burns: 1, .. }) => cells[start] |= 2,
        ("a cut does nothing", Cut { .. }) => cells.copy_from_slice(before),
        ("the table emptied by a cut", Cut { .. }) => lent.table = Table::default(),
        ("a fuse behind the partition burned", Erased { .. }) => set(&mut cells[end..]),
        ("a fuse of the partition cleared", Erased { .. }) => cells[start] &= !1,
        ("the digest left out", Erased { .. }) => {
            cells[end - 4..end - 2].copy_from_slice(&before[end - 4..end - 2]);
        }
        ("an erasure that is refused burns" | "cell 0: ", Refused { .. }) => set(cells),
        ("a key held after an erasure" | "place 15: ", Erased { .. }) => {
            lent.cache.places[15] = Place::Held(0);
        }
        ("a reply awaited after an erasure", Erased { .. }) => {
            lent.cache.awaited = Some(Awaited::Clear);
        }
        // Document 01's rule, which left the indicator burned.
        ("15 for a short indicator", Erased { .. }) if is_weak(partition, cells) => {
            cells[start..end - 2].copy_from_slice(&before[start..end - 2]);
        }
        ("no 15 for an indicator without a set fuse", Refused { number: 15, .. }) => {
            set(&mut cells[start..end - 2]);
        }
        _ => {}
    }
}

/// What is said, by the cells before the erasure and after it.
fn say(
    fault: &str,
    right: Erasure,
    partition: Option<&Layout>,
    cut: bool,
    [before, cells]: [&[u32]; 2],
) -> Erasure {
    let (Range { start, end }, mut said) = (cells_of(partition), right);
    match (fault, &mut said) {
        ("k burns counted in a cut at k", Cut { burns, .. }) => *burns -= 1,
        ("a cut past the end answers that it was cut", Erased { burns, new_fuses, .. }) if cut => {
            said = Cut { burns: *burns, new_fuses: *new_fuses };
        }
        ("no burn counted once a cell is burned", Erased { burns, .. })
            if before[start] == u32::MAX =>
        {
            *burns = 0;
        }
        ("no such partition or not zeroizable: accepted", Refused { number: 7 | 8, .. }) => {
            said = Erased { short_pairs: 0, first_short: None, burns: 0, new_fuses: 0 };
        }
        ("the answer: the model says Erasure(", Erased { first_short: Some(0), .. }) => {
            said = Cut { burns: 0, new_fuses: 0 };
        }
        ("15 for a short indicator", Erased { .. }) if is_weak(partition, cells) => {
            said = Refused { number: 15, burns: 1 };
        }
        ("no 15 for an indicator without a set fuse", Refused { number: 15, .. }) => {
            let first_short = Some(end as u32 - 2);
            said = Erased { short_pairs: 1, first_short, burns: 3, new_fuses: 0 };
        }
        ("an erasure tells its last short pair", Erased { first_short, .. }) => {
            let last = partition.and_then(|partition| partition.short_pairs(cells).last());
            *first_short = last.map(|(first, _)| first as u32);
        }
        _ => {}
    }
    said
}
