//! The key block once more, as an engineer writes it in safe Rust from the
//! documents for firmware in which speed does not matter: no allocation, and a test
//! that fails ends the call. It shares no code with the model but the names of states,
//! reasons, orders, places, replies and handles, and none with the library; it is what the
//! library's times are divided by.
//!
//! The calls are not inlined, since those of the library cannot be.

mod cache;
mod erasure;
mod fuses;
mod handles;
mod mailbox;
mod map;
mod text;

pub use cache::engine_reply;
pub use erasure::{erase, Erased};
pub use fuses::{states, why};
pub use mailbox::{mailbox, Buffers, Kept};
pub use map::{Entry, Header};
pub use text::write_map;

use map::Map;

/// The number of a refusal.
pub type Refusal = u32;

/// A drive, with cells that a call may change.
pub struct Drive<'a> {
    /// The map image.
    pub image: &'a [u8],
    /// The fuse cells.
    pub cells: &'a mut [u32],
    /// Their stuck marks.
    pub marks: &'a [u32],
}

impl<'a> Drive<'a> {
    /// The map of the drive: refusals 1 and 2.
    fn map(&self) -> Result<Map<'a>, Refusal> {
        checked_map(self.image, self.cells, self.marks)
    }
}

/// The fields of a partition, with the header's: refusals 1 and 7.
#[inline(never)]
pub fn partition(image: &[u8], number: u32) -> Result<(Header, Entry), Refusal> {
    let map = Map::read(image).ok_or(1_u32)?;
    let entry = map.entry(number).ok_or(7_u32)?;
    Ok((map.header, entry))
}

/// The map of an image with as many cells and marks as it says.
fn checked_map<'a>(image: &'a [u8], cells: &[u32], marks: &[u32]) -> Result<Map<'a>, Refusal> {
    let map = Map::read(image).ok_or(1_u32)?;
    let count = usize::from(map.header.cells);
    if cells.len() != count || marks.len() != count {
        return Err(2);
    }
    Ok(map)
}
