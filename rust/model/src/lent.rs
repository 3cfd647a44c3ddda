//! Document 01, "Burning and counting", "Active slot and key cache" and "Mailbox", and P2,
//! P5 and P6 of document 02: everything that a caller lends to a call.

use crate::cache::Cache;
use crate::drive::Drive;
use crate::handles::Table;

/// "partition count P (1..16)": the most partitions of a map.
pub const PARTITIONS: usize = 16;

/// What a call finds, or what it leaves, for every call alike: each sees and
/// changes the parts that are its own. Nothing is checked: any part may have any
/// length. By default every part is empty or zero.
#[derive(Clone, Debug, Default, PartialEq, Eq)]
pub struct Lent {
    /// "Burning and counting": map image, fuse cells and stuck marks.
    pub drive: Drive,
    /// "Active slot and key cache": the key cache, with P5's awaited reply.
    pub cache: Cache,
    /// Document 02, P6: the table of handles.
    pub table: Table,
    /// "Active slot and key cache": the engine block, as the lent buffer for it.
    pub block: Vec<u8>,
    /// "Mailbox": the response buffer.
    pub response: Vec<u8>,
    /// "Burning and counting": where the partitions' states are written, each as
    /// its place among the four.
    pub states: [u32; PARTITIONS],
    /// "Burning and counting": where their numbers of short pairs are written.
    pub short_pairs: [u32; PARTITIONS],
    /// Document 02, P2: the output buffer, where a map's image is written.
    pub output: Vec<u8>,
}
