//! Document 01, "The map of the fuses" and "Burning and counting": what can be
//! read off a drive, with nothing changed.

use crate::drive::Drive;
use crate::lent::Lent;
use crate::map::{Entry, Header, Map};
use crate::partition::{Partition, State};
use crate::refusal::{self, Refusal};

/// "The map of the fuses": the reader that answers "each entry's fields", here
/// with the header's, or the number of the refusal.
pub fn fields(image: &[u8], partition: u32) -> Result<(Header, Entry), u32> {
    match (Map::read(image), refusal::first(&applying_to_fields(image, partition))) {
        (Some(map), None) => Ok((map.header(), map.entries()[partition as usize])),
        (_, number) => Err(number.expect("a bad map is refused")),
    }
}

/// "Burning and counting": the state of each partition with its number of short
/// pairs, or the number of the refusal.
pub fn states(drive: &Drive) -> Result<Vec<(State, u32)>, u32> {
    let map = match (drive.map(), refusal::first(&applying(drive))) {
        (Some(map), None) => map,
        (_, number) => return Err(number.expect("a bad map is refused")),
    };
    let partition = |number| Partition::of(&map, number, &drive.cells);
    let partitions = (0..map.entries().len()).map(partition);
    Ok(partitions.map(|whole| (whole.state(), whole.short_pairs() as u32)).collect())
}

/// The fields as the numbers that C is told: the refusal or 0, P, C, B, first cell,
/// n, kind and flags; of a refusal all others are 0.
pub fn numbers(image: &[u8], partition: u32) -> [u32; 8] {
    match fields(image, partition) {
        Err(number) => [number, 0, 0, 0, 0, 0, 0, 0],
        Ok((Header { partitions, cells, bound, .. }, Entry { first, n, kind, flags, .. })) => {
            let [partitions, cells, bound, first, n] =
                [partitions, cells, bound, first, n].map(u32::from);
            [0, partitions, cells, bound, first, n, kind.into(), flags.into()]
        }
    }
}

/// The states written where the caller wants them: the refusal or 0 and P, and
/// everything lent as the call leaves it. Past the map's partitions, and on
/// refusal, both arrays keep their numbers.
pub fn list(before: &Lent) -> ([u32; 2], Lent) {
    let mut after = before.clone();
    let listed = match states(&before.drive) {
        Err(number) => return ([number, 0], after),
        Ok(listed) => listed,
    };
    for (partition, (state, short_pairs)) in listed.iter().enumerate() {
        after.states[partition] = *state as u32;
        after.short_pairs[partition] = *short_pairs;
    }
    ([0, listed.len() as u32], after)
}

/// "Refusal numbers": every refusal that applies where a partition's fields are
/// asked for.
pub fn applying_to_fields(image: &[u8], partition: u32) -> Vec<Refusal> {
    let map = Map::read(image);
    let entries = map.as_ref().map(|map| map.entries().len());
    refusal::that_apply([
        (Refusal::BadMap, map.is_none()),
        (Refusal::NotThere, entries.map_or(false, |entries| partition as usize >= entries)),
    ])
}

/// "Refusal numbers": every refusal that applies where the states are asked for or, by P1
/// of document 02, "Refusals: 1, 2", the reason.
pub fn applying(drive: &Drive) -> Vec<Refusal> {
    refusal::that_apply([
        (Refusal::BadMap, drive.map().is_none()),
        (Refusal::WrongLength, drive.lengths_are_wrong()),
    ])
}
