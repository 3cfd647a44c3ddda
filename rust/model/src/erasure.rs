//! Document 01, "Erasing a partition", as P4, P5 and P8 of document 02 change it.

use crate::cache::Cache;
use crate::drive::Drive;
use crate::fuse;
use crate::lent::Lent;
use crate::map::{Map, Part, Word};
use crate::partition::Partition;
use crate::refusal::{self, Refusal};

/// "all ones each"; of them, a word of 32 bits takes the low 32.
const ALL_ONES: u64 = u64::MAX;

/// "Erasing a partition": the erasure of a partition, cut or not.
#[derive(Clone, Copy, Debug, PartialEq, Eq)]
pub struct Erase {
    /// Number of the partition.
    pub partition: u32,
    /// Where the power fails; none if it does not.
    pub cut: Option<Cut>,
}

/// "Erasing a partition": "A *cut* erasure names k (from 0) and a 64-bit mask".
#[derive(Clone, Copy, Debug, PartialEq, Eq)]
pub struct Cut {
    /// The burn that the power fails at.
    pub k: u32,
    /// What that burn has "in place of all ones".
    pub mask: u64,
}

/// "Erasing a partition": what an erasure answers. P8: "every burn reports the number of fuses it
/// newly set", "erasures add it up, cut ones included".
#[derive(Clone, Copy, Debug, PartialEq, Eq)]
pub enum Erasure {
    /// Ran to its end.
    Erased {
        /// "the number of short pairs of the partition"
        short_pairs: u32,
        /// "the first cell of the lowest one", none if no pair is short; the
        /// document's number for none is 0xFFFFFFFF.
        first_short: Option<u32>,
        /// "the number of burns carried out"
        burns: u32,
        /// The fuses that they newly set.
        new_fuses: u32,
    },
    /// "it answers only that it was cut and the burns carried out, k + 1"
    Cut {
        /// The burns carried out.
        burns: u32,
        /// The fuses that they newly set.
        new_fuses: u32,
    },
    /// Refused. It has no number of fuses, in C 0: no refusal sets one. P8: "15 reports 0, as its
    /// burn sets nothing."
    Refused {
        /// The refusal's number.
        number: u32,
        /// The burns carried out: 1 for 15, none for any other.
        burns: u32,
    },
}

/// "Erasing a partition": the answer, and everything lent as the erasure leaves it.
pub fn erase(before: &Lent, erase: Erase) -> (Erasure, Lent) {
    let mut after = before.clone();
    let erasure = match refusal::first(&applying(before, erase)) {
        None => carry_out(&mut after, erase),
        // "one burn is reported to a library caller": that of an indicator which, by P4, has no
        // set fuse after it, so that it has set none, and 15 too leaves everything as it was.
        Some(number) => {
            let burns = u32::from(number == Refusal::IndicatorUnset.number());
            Erasure::Refused { number, burns }
        }
    };
    (erasure, after)
}

/// "Erasing a partition": an erasure to which no refusal applies.
fn carry_out(lent: &mut Lent, erase: Erase) -> Erasure {
    let map = lent.drive.map().expect("the map is good");
    let partition = erase.partition as usize;
    let words = order(&map, partition).len();
    // "If the erasure would end before burn k, it runs as uncut."
    let cut = erase.cut.filter(|cut| (cut.k as usize) < words);
    let mut values = vec![ALL_ONES; cut.map_or(words, |cut| cut.k as usize)];
    values.extend(cut.map(|cut| cut.mask));
    let new_fuses = burn_in_order(&mut lent.drive, erase.partition, &values);
    let burns = values.len() as u32;
    if cut.is_some() {
        // "nothing follows and the key cache is empty"; P5: "A cut or restart empties all places
        // and drops an awaited reply."
        lent.cache = Cache::default();
        return Erasure::Cut { burns, new_fuses };
    }
    let partition = Partition::of(&map, partition, &lent.drive.cells);
    let first_short = partition.lowest_short_pair().map(|cell| cell as u32);
    Erasure::Erased { short_pairs: partition.short_pairs() as u32, first_short, burns, new_fuses }
}

/// "Order of burns, all ones each: indicator, data words ascending, digest."
/// The words with their first cells; none for a partition that is not there,
/// and no indicator in one that is not zeroizable.
pub fn order(map: &Map, partition: usize) -> Vec<(usize, Word)> {
    let cells = map.entries().get(partition).map_or(0..0, |entry| entry.range());
    let words: Vec<_> = cells.filter_map(|cell| Some((cell, map.word_at(cell)?))).collect();
    let of = |part| words.iter().filter(move |(_, word)| word.part == part);
    of(Part::Indicator).chain(of(Part::Data)).chain(of(Part::Digest)).copied().collect()
}

/// "Erasing a partition": burns these values into the partition's words, one
/// into each, as far as they reach in the order of burns. P8: adds up what each burn reports.
fn burn_in_order(drive: &mut Drive, partition: u32, values: &[u64]) -> u32 {
    let map = drive.map().expect("the map is good");
    let mut new_fuses = 0;
    for ((first, word), value) in order(&map, partition as usize).into_iter().zip(values) {
        new_fuses += fuse::burn_word(&mut drive.cells, &drive.marks, first, word.size, *value);
    }
    new_fuses
}

/// "Refusal numbers": every refusal that applies to the erasure, each tested by
/// itself. A test with nothing to go by does not apply: without a good map
/// there are no partitions, and without C cells and marks nothing is burned.
pub fn applying(lent: &Lent, erase: Erase) -> Vec<Refusal> {
    let lengths = [
        (Refusal::BadMap, lent.drive.map().is_none()),
        (Refusal::WrongLength, lent.drive.lengths_are_wrong()),
    ];
    refusal::that_apply(lengths.into_iter().chain(partition_tests(lent, erase)))
}

/// "Refusal numbers": the tests that ask about the partition, which FERS has in
/// common with the erasure.
pub(crate) fn partition_tests(lent: &Lent, erase: Erase) -> Vec<(Refusal, bool)> {
    let map = lent.drive.map();
    let entry = map.as_ref().and_then(|map| map.entries().get(erase.partition as usize));
    let mut tests = vec![(Refusal::NotThere, map.is_some() && entry.is_none())];
    if let Some(entry) = entry {
        // "FERS: not zeroizable"
        tests.push((Refusal::MayNotTouch, !entry.zeroizable()));
        // "WRITE, ZEROIZE and erasure on a slot are refused (10) while any place is held."
        tests.push((Refusal::KeysHeld, entry.slot() && lent.cache.any_held()));
        // Where the power fails at burn 0, nothing asks for the indicator's
        // fuses, since "it answers only that it was cut".
        let asked = entry.zeroizable() && erase.cut.map_or(true, |cut| cut.k > 0);
        tests.push((Refusal::IndicatorUnset, asked && unmarked_after_burn(lent, erase)));
    }
    tests
}

/// P4: "Erasure goes on whenever it is marked after the first burn." "15 is given exactly when
/// no indicator fuse is set after its burn."
fn unmarked_after_burn(lent: &Lent, erase: Erase) -> bool {
    let mut drive = lent.drive.clone();
    if drive.lengths_are_wrong() {
        return false;
    }
    burn_in_order(&mut drive, erase.partition, &[ALL_ONES]);
    let map = drive.map().expect("the map is good");
    !Partition::of(&map, erase.partition as usize, &drive.cells).marked()
}
