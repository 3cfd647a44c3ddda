//! The states of a drive's partitions (document 01, "Burning and counting"; document 02, P4).

use crate::constants::PARTITIONS;
use crate::raw;

/// What [`states`](crate::states) answers.
#[must_use]
#[derive(Clone, Copy, Debug, PartialEq, Eq)]
pub enum States {
    /// The state and the short pairs of every partition.
    Listed(Listing),
    /// Refused with this number: 1 for a bad map, 2 for cells or marks that are
    /// not as many as the map says.
    Refused(u32),
}

/// The state of a partition. It is marked (which has nothing to do with the stuck marks)
/// when it is zeroizable and its indicator has at least one set fuse.
#[must_use]
#[derive(Clone, Copy, Debug, PartialEq, Eq)]
pub enum State {
    /// Marked, no pair but the indicator short. The indicator may be.
    Erased,
    /// Marked, some other pair short.
    Torn,
    /// Not marked, every data cell zero.
    Blank,
    /// Not marked, some data fuse set.
    Programmed,
}

/// The state and the short pairs of each partition of a map, numbered from 0.
#[must_use]
#[derive(Clone, Copy, Debug, PartialEq, Eq)]
pub struct Listing {
    partitions: u32,
    /// The archive's numbers of the states; 0 past the map's partitions, as are
    /// the short pairs.
    states: [u32; PARTITIONS],
    short_pairs: [u32; PARTITIONS],
}

impl State {
    /// The state's name in document 01.
    #[must_use]
    pub fn name(self) -> &'static str {
        match self {
            State::Erased => "erased",
            State::Torn => "torn",
            State::Blank => "blank",
            State::Programmed => "programmed",
        }
    }

    fn from_raw(state: u32) -> State {
        match state {
            raw::STATE_ERASED => State::Erased,
            raw::STATE_TORN => State::Torn,
            raw::STATE_BLANK => State::Blank,
            _ => State::Programmed,
        }
    }
}

impl Listing {
    /// How many partitions the map has, 1 to 16.
    #[allow(clippy::len_without_is_empty)] // no map is without a partition
    #[must_use]
    pub fn len(&self) -> u32 {
        self.partitions
    }

    /// The state of the partition of this number, and how many of its pairs are
    /// short, those of digest and indicator included: an erased one has 0, or 1 where
    /// its indicator is short. None if there is no such partition.
    #[must_use]
    pub fn get(&self, partition: u32) -> Option<(State, u32)> {
        let place = (partition < self.partitions).then_some(partition as usize)?;
        let (state, short_pairs) = (self.states.get(place)?, self.short_pairs.get(place)?);
        Some((State::from_raw(*state), *short_pairs))
    }
}

impl States {
    /// The states of a drive, asked for by the archive's call, which writes them
    /// in place.
    pub(crate) fn of(image: &[u8], cells: &[u32], marks: &[u32]) -> States {
        let mut listing =
            Listing { partitions: 0, states: [0; PARTITIONS], short_pairs: [0; PARTITIONS] };
        let Listing { states, short_pairs, .. } = &mut listing;
        let raw::Listing { refusal, partitions } =
            raw::states(image, cells, marks, states, short_pairs);
        listing.partitions = partitions;
        match refusal {
            0 => States::Listed(listing),
            number => States::Refused(number),
        }
    }
}
