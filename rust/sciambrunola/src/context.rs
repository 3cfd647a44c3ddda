//! What the key block keeps between calls.

use crate::constants::CONTEXT_WORDS;
use crate::raw;

/// All that the key block keeps between calls: the key cache with its
/// [`PLACES`](crate::PLACES) places, whether the engine's reply is awaited, and the table of
/// handles. A new one has every place empty, no reply is awaited, and there is no table:
/// make it by [`make_table`](crate::make_table), without which every mailbox command is
/// refused, with 2 unless 1 applies.
///
/// Keep one for each drive, and lend it to every call on it. Keep it over restarts and a
/// loss of power too, for the table's sake: by its [`words`](Context::words).
#[repr(C)]
#[derive(Clone, Debug, PartialEq, Eq)]
pub struct Context {
    /// What they mean is the archive's affair alone; it may change with a release.
    words: [u64; CONTEXT_WORDS],
}

/// What a place of the key cache has (document 02, P5): where it is not empty, a tag.
#[must_use]
#[derive(Clone, Copy, Debug, PartialEq, Eq)]
pub enum Place {
    /// Nothing, and nothing of a tag that was there.
    Empty,
    /// The tag of an order to which the engine's reply is awaited: a load of it, an unload
    /// of it, or a clear.
    Waiting(u64),
    /// A tag whose key the engine has: it replied done to the load.
    Held(u64),
    /// A tag whose key the engine may have or not: it timed out or failed. KLOD and KUNL
    /// are refused, with 18 unless one of 1 to 14 applies, until CLKC, answered done, has
    /// emptied the place.
    Unsure(u64),
}

impl Context {
    /// The context before the first call: every place is empty, no reply is awaited, and
    /// there is no table.
    #[must_use]
    pub const fn new() -> Context {
        Context { words: [0; CONTEXT_WORDS] }
    }

    /// What a place of the key cache has. Empty too if there is no such place.
    pub fn place(&self, i: usize) -> Place {
        match u32::try_from(i) {
            Ok(number) => Place::from_raw(raw::cache_place(self, number)),
            Err(_) => Place::Empty,
        }
    }

    /// The context whose [`words`](Context::words) were saved, by this version. It has the
    /// key cache of then: call [`restart`](crate::restart).
    #[must_use]
    pub const fn from_words(words: [u64; CONTEXT_WORDS]) -> Context {
        Context { words }
    }

    /// The words, to be saved whole, and neither changed nor interpreted.
    #[must_use]
    pub const fn words(&self) -> [u64; CONTEXT_WORDS] {
        self.words
    }
}

impl Default for Context {
    fn default() -> Context {
        Context::new()
    }
}

impl Place {
    fn from_raw(place: raw::Place) -> Place {
        match place.kind {
            raw::PLACE_EMPTY => Place::Empty,
            raw::PLACE_HELD => Place::Held(place.tag),
            raw::PLACE_WAITING => Place::Waiting(place.tag),
            _ => Place::Unsure(place.tag),
        }
    }
}
