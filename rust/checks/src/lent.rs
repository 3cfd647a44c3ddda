//! What a call is lent beside a drive: a table, buffers, and keys that are held.

use model::{Drive, Handle, Lent, Place, Table};
use sciambrunola::{BLOCK_BYTES, LEAST_RESPONSE};

/// The handles of a fresh table, with their algorithms, and the largest of them.
const HANDLES: [[u32; 2]; 3] = [[5, 1], [9, 2], [7, 2]];
const LARGEST: u64 = 9;

/// A drive with a fresh table of three handles and no key held. Block and response buffer hold
/// bytes that no answer has.
pub fn of(drive: Drive) -> Lent {
    let (block, response) = (vec![0xB1; BLOCK_BYTES], vec![0xA5; LEAST_RESPONSE]);
    Lent { drive, table: table(), block, response, ..Lent::default() }
}

/// That table.
pub fn table() -> Table {
    let handles = HANDLES.map(|[number, algorithm]| Handle { number, algorithm });
    Table { count: handles.len() as u64, handles, greatest: LARGEST }
}

/// The same with these tags in the lowest places of the cache.
pub fn holding(mut lent: Lent, tags: impl IntoIterator<Item = u64>) -> Lent {
    lent.cache.places.iter_mut().zip(tags).for_each(|(place, tag)| *place = Place::Held(tag));
    lent
}
