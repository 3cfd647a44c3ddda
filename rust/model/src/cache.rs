//! Document 01, "Active slot and key cache", as P5 of document 02 changes it: the key cache with
//! the reply that is awaited, and the restart.

use crate::lent::Lent;

/// "Active slot and key cache": "The cache has 16 places".
pub const PLACES: usize = 16;

/// P5: "A cache place is empty, waiting, held or unsure." Each but an empty one has "a 64-bit
/// tag".
#[derive(Clone, Copy, Debug, Default, PartialEq, Eq)]
#[allow(missing_docs)]
pub enum Place {
    #[default]
    Empty,
    Waiting(u64),
    Held(u64),
    Unsure(u64),
}

/// P5: "After each order the drive hands us the engine's reply": the order whose reply is
/// awaited.
#[derive(Clone, Copy, Debug, PartialEq, Eq)]
#[allow(missing_docs)]
pub enum Awaited {
    Clear,
    Load,
    Unload,
}

/// "Active slot and key cache": the places, and P5's awaited reply. By default every place is
/// empty and no reply is awaited.
#[derive(Clone, Debug, Default, PartialEq, Eq)]
pub struct Cache {
    /// What each place is.
    pub places: [Place; PLACES],
    /// The order whose reply is awaited, none if no reply is.
    pub awaited: Option<Awaited>,
}

impl Place {
    /// "held": the engine has its key.
    pub fn is_held(&self) -> bool {
        matches!(self, Place::Held(_))
    }

    /// "waiting", for a reply.
    pub fn is_waiting(&self) -> bool {
        matches!(self, Place::Waiting(_))
    }

    /// "unsure", whether the engine has its key.
    pub fn is_unsure(&self) -> bool {
        matches!(self, Place::Unsure(_))
    }

    /// The tag, none of an empty place.
    pub fn tag(self) -> Option<u64> {
        match self {
            Place::Empty => None,
            Place::Waiting(tag) | Place::Held(tag) | Place::Unsure(tag) => Some(tag),
        }
    }

    /// As C is told it: its kind, 0 for empty, 1 for held, 2 for waiting, 3 for unsure, and its
    /// tag, 0 of an empty place.
    pub fn told(self) -> [u64; 2] {
        match self {
            Place::Empty => [0, 0],
            Place::Held(tag) => [1, tag],
            Place::Waiting(tag) => [2, tag],
            Place::Unsure(tag) => [3, tag],
        }
    }
}

impl Cache {
    /// "Active slot and key cache": whether "any place is held"; P5: "Waiting and unsure places
    /// count as held for refusals 10, 12 and 13."
    pub fn any_held(&self) -> bool {
        self.places.iter().any(|place| *place != Place::Empty)
    }

    /// P5: whether "a reply is awaited or a place waits".
    pub fn waits(&self) -> bool {
        self.awaited.is_some() || self.places.iter().any(Place::is_waiting)
    }

    /// P5: whether "a place is unsure".
    pub fn any_unsure(&self) -> bool {
        self.places.iter().any(Place::is_unsure)
    }

    /// The tags of all places that have one, in their order.
    pub fn tags(&self) -> Vec<u64> {
        self.places.iter().filter_map(|place| place.tag()).collect()
    }

    /// A place, an empty one if there is none of this number.
    pub fn place(&self, number: u32) -> Place {
        self.places.get(number as usize).copied().unwrap_or_default()
    }

    /// "the lowest empty place, freed ones included", none if the cache is full.
    pub fn lowest_empty(&self) -> Option<usize> {
        self.places.iter().position(|place| *place == Place::Empty)
    }

    /// "the lowest place that holds its tag", none if none does; P5: "KUNL finds a waiting or
    /// unsure tag", and KLOD counts it as held.
    pub fn lowest_holding(&self, tag: u64) -> Option<usize> {
        self.places.iter().position(|place| place.tag() == Some(tag))
    }
}

/// "A restart empties the cache and changes nothing else"; P5: "A cut or restart empties all
/// places and drops an awaited reply." P6: the table, "which a restart leaves".
pub fn restart(before: &Lent) -> Lent {
    Lent { cache: Cache::default(), ..before.clone() }
}
