//! What the map says of a partition (document 01, "The map of the fuses").

use crate::raw;

/// What [`partition`](crate::partition) answers.
#[must_use]
#[derive(Clone, Copy, Debug, PartialEq, Eq)]
pub enum Fields {
    /// The fields of the partition, and those of the map's header.
    Partition {
        /// The map's partitions P, numbered from 0.
        partitions: u32,
        /// The cells C of the whole array.
        cells: u32,
        /// The bound B: a pair with fewer ones is short.
        bound: u32,
        /// The partition's first cell, in the whole array.
        first: u32,
        /// Its number of cells n.
        length: u32,
        /// Hardware, software or life cycle: see [`kind`](crate::kind).
        kind: u32,
        /// The sum of its flags: see [`flag`](crate::flag).
        flags: u32,
    },
    /// Refused with this number: 1 for a bad map, 7 for no such partition.
    Refused(u32),
}

impl Fields {
    pub(crate) fn from_raw(fields: raw::Fields) -> Fields {
        let raw::Fields { refusal, partitions, cells, bound, first, length, kind, flags } = fields;
        match refusal {
            0 => Fields::Partition { partitions, cells, bound, first, length, kind, flags },
            number => Fields::Refused(number),
        }
    }
}
