//! Document 01, "Active slot and key cache": the active slot.

use crate::map::Map;
use crate::partition::{Partition, State};

/// "Active slot and key cache": the number of "the first slot in map order that
/// is not erased", none if there is no such slot.
pub fn active_slot(map: &Map, cells: &[u32]) -> Option<usize> {
    let is_slot = |number: usize| map.entries()[number].slot();
    let erased = |number: usize| Partition::of(map, number, cells).state() == State::Erased;
    (0..map.entries().len()).find(|number| is_slot(*number) && !erased(*number))
}

/// "The HEK is available when there is one and it is programmed."
pub fn hek_available(map: &Map, cells: &[u32]) -> bool {
    let programmed = |number| Partition::of(map, number, cells).state() == State::Programmed;
    active_slot(map, cells).map_or(false, programmed)
}
