//! Copies of the model with one fault each, for the tests of the tests: one for each thing that a
//! comparison looks at, for each clause of a history one that breaks it, wrong states, reasons and
//! maps, wrong places, orders and replies, wrong tables and handles, wrong ZEROIZEs, and wrong
//! numbers of new fuses. That the proofs refuse faults of the key block itself is shown by the
//! edits in `crates/*/must-fail`.

mod charge;
mod engine;
mod erasures;
mod guides;
mod handles;
mod made;
mod maps;

pub use made::{of_charge, of_engine, of_guides, of_handles, of_sums};
pub use maps::OF_MAPS;

use crate::layout::Layout;
use model::Reason::{AllErased, Available, Blank, NoSlot, Torn};
use model::{Answer, Awaited, Call, Command, Cut, Drive, Erase, KeyBlock, Lent, Model};
use model::{Reason, Reply, Said, State};

/// Faults by how their difference from the model is told.
pub const OF_COMPARISONS: [&str; 20] = [
    "the answer: the model says Answer(",
    "the answer: the model says Erasure(",
    "the answer: the model says Fields(",
    "the answer: the model says Listing(",
    "the answer: the model says Made(",
    "the answer: the model says Place(",
    "the answer: the model says Reason(",
    "the answer: the model says Reply(",
    "the answer: the model says Taken(",
    "the answer: the model says Written(",
    "cell 0: ",
    "place 15: ",
    "the awaited reply: ",
    "table word 4: ",
    "block byte 127: ",
    "response byte 7: ",
    "state 0: ",
    "short pairs 15: ",
    "output byte 8: ",
    "the model leaves ",
];

/// Faults that break demand 3, or document 02's P4 on erasures.
pub const OF_HISTORIES: [&str; 21] = [
    "numbers in 8 bits",
    "numbers in 16 bits",
    "a cut at the indicator burns data",
    "a cut does nothing",
    "a cut past the end answers that it was cut",
    "k burns counted in a cut at k",
    "a fuse behind the partition burned",
    "a fuse of the partition cleared",
    "the digest left out",
    "no burn counted once a cell is burned",
    "no such partition or not zeroizable: accepted",
    "an erasure that is refused burns",
    "a byte of the response not written",
    "response buffer cleared to its end",
    "a restart burns fuses",
    "a key held after an erasure",
    "a reply awaited after an erasure",
    "the table emptied by a cut",
    "15 for a short indicator",
    "no 15 for an indicator without a set fuse",
    "an erasure tells its last short pair",
];

/// Faults of the states, and of the reason why there is no key.
pub const OF_STATES: [&str; 8] = [
    "a state by counted as zeroized, not by marked",
    "a slot that is marked, but not counted as zeroized, gives its key",
    "the last short pair for the first",
    "the ones of the low half",
    "a cell counted from the partition's first",
    "all erased where the map has no slot",
    "a blank slot taken for a programmed one",
    "a refusal taken for no slot",
];

/// The model with the fault of this name; without one for any other name.
pub struct Faulty(pub &'static str);

impl KeyBlock for Faulty {
    fn answer(&mut self, lent: &mut Lent, call: &Call) -> Said {
        let before = lent.clone();
        let said = Model.answer(lent, &self.asked(call));
        let made = made::Made { call, before: &before, said, after: lent };
        if let Some(said) = made::faulty(self.0, made) {
            return said;
        }
        let faulty = match (call, said) {
            (Call::Erase(erase), Said::Erasure(erasure)) => {
                Some(Said::Erasure(erasures::erased(self.0, *erase, erasure, &before, lent)))
            }
            (_, Said::Reply(Reply::Accepted { length, .. })) => self.replied(length, &before, lent),
            (Call::WriteMap(text), Said::Written(written)) => {
                maps::written(self.0, text, written, lent)
            }
            (_, Said::Reason(reason)) => {
                self.reasoned(reason, &before.drive).map(|reason| Said::Reason(Ok(reason)))
            }
            _ => self.others(said, lent),
        };
        faulty.unwrap_or(said)
    }
}

impl Faulty {
    /// The call with its numbers in fewer bits or its text taken for another, or as it is.
    fn asked(&self, call: &Call) -> Call {
        if let Call::WriteMap(text) = call {
            return Call::WriteMap(maps::taken_for(self.0, text));
        }
        let bits = match self.0 {
            "numbers in 8 bits" => 0xFF,
            "numbers in 16 bits" => 0xFFFF,
            _ => return call.clone(),
        };
        match call.clone() {
            Call::Partition(number) => Call::Partition(number & bits),
            Call::Place(number) => Call::Place(number & bits),
            Call::Direct(Command::Read { cell }) => {
                Call::Direct(Command::Read { cell: cell & bits })
            }
            Call::Erase(Erase { partition, cut }) => {
                let cut = cut.map(|cut| Cut { k: cut.k & bits, ..cut });
                Call::Erase(Erase { partition: partition & bits, cut })
            }
            other => other,
        }
    }

    /// What is said of a mailbox command that was carried out, none if it is right; what it left is
    /// changed.
    fn replied(&self, length: usize, before: &Lent, lent: &mut Lent) -> Option<Said> {
        match self.0 {
            "the answer: the model says Reply(" => return Some(Said::Reply(Reply::Refused(99))),
            "block byte 127: " => lent.block[127] ^= 1,
            // The last byte of fips_status, which is 0 in every response.
            "a byte of the response not written" | "response byte 7: " => {
                lent.response[7] = before.response[7];
            }
            "response buffer cleared to its end" => lent.response[length..].fill(0),
            _ => {}
        }
        None
    }

    /// The same for a reason, none if it is right.
    fn reasoned(&self, right: Result<Reason, u32>, drive: &Drive) -> Option<Reason> {
        Some(match (self.0, right) {
            ("the last short pair for the first", Ok(Torn { partition, .. })) => {
                let (cell, ones) =
                    Layout::of(drive, partition)?.short_pairs(&drive.cells).last()?;
                Torn { partition, cell: cell as u32, ones }
            }
            ("the ones of the low half", Ok(Torn { partition, cell, .. })) => {
                Torn { partition, cell, ones: drive.cells[cell as usize].count_ones() }
            }
            ("a cell counted from the partition's first", Ok(Torn { partition, cell, ones })) => {
                let first = Layout::of(drive, partition)?.range.start as u32;
                Torn { partition, cell: cell - first, ones }
            }
            ("all erased where the map has no slot", Ok(NoSlot)) => AllErased,
            ("a blank slot taken for a programmed one", Ok(Blank { .. })) => Available,
            ("a refusal taken for no slot", Err(_)) => NoSlot,
            (
                "a slot that is marked, but not counted as zeroized, gives its key",
                Ok(Torn { partition, .. }),
            ) if Layout::of(drive, partition)?.weakly_marked(&drive.cells) => Available,
            ("the answer: the model says Reason(", Ok(AllErased)) => NoSlot,
            _ => return None,
        })
    }

    /// The same for the other calls that only read, and for the restart.
    fn others(&self, right: Said, lent: &mut Lent) -> Option<Said> {
        match (self.0, right) {
            ("the answer: the model says Answer(", Said::Answer(Answer::Withheld)) => {
                return Some(Said::Answer(Answer::Done));
            }
            ("the answer: the model says Fields(", Said::Fields([7, ..])) => {
                return Some(Said::Fields([7, 2, 0, 0, 0, 0, 0, 0]));
            }
            ("the answer: the model says Listing(", Said::Listing([2, _])) => {
                return Some(Said::Listing([2, 2]));
            }
            ("the answer: the model says Place(", Said::Place([1, 0])) => {
                return Some(Said::Place([0, 0]));
            }
            ("a state by counted as zeroized, not by marked", Said::Listing([0, _])) => {
                unmark(lent);
            }
            ("the answer: the model says Taken(", Said::Taken(Err(_))) => {
                return Some(Said::Taken(Ok(())));
            }
            ("the awaited reply: ", Said::Taken(Ok(()))) => {
                lent.cache.awaited = Some(Awaited::Load)
            }
            ("the answer: the model says Made(", Said::Made(Err(_))) => {
                return Some(Said::Made(Ok(())));
            }
            ("table word 4: ", Said::Made(Ok(()))) => lent.table.greatest += 1,
            ("state 0: ", Said::Listing([1 | 2, _])) => lent.states[0] ^= 1,
            ("short pairs 15: ", Said::Listing([0, 1..=15])) => lent.short_pairs[15] ^= 1,
            ("the model leaves ", Said::Nothing) => set(&mut lent.drive.marks),
            ("a restart burns fuses", Said::Nothing) => set(&mut lent.drive.cells),
            _ => {}
        }
        None
    }
}

/// Makes the weakly marked partitions programmed.
fn unmark(lent: &mut Lent) {
    let partitions = Layout::all(&lent.drive);
    for (state, partition) in lent.states.iter_mut().zip(partitions) {
        if partition.weakly_marked(&lent.drive.cells) {
            *state = State::Programmed as u32;
        }
    }
}

/// Sets a fuse of each cell, or a mark.
fn set(cells: &mut [u32]) {
    cells.iter_mut().for_each(|cell| *cell |= 1);
}
