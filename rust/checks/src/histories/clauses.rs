//! Demand 3 and document 01, "Attempts", and document 02, P4 and P8, on erasures: each clause as a
//! check of values, with nothing of the model that burns or counts; of its refusals only the map's
//! rules.

use super::play::Step;
use crate::layout::ones;
use crate::small::response;
use crate::tally::{self, Row};
use model::{Cache, Call, Cut, Erase, Erasure, Lent, Reply, Said};
use sciambrunola::NO_CELL;
use std::ops::Range;

/// What a clause says of one attempt: whether it holds, or none where it asks for nothing.
type Clause = fn(&Step) -> Option<bool>;

/// The name of P8's clause.
pub const SUM: &str = "the new fuses told so far are the set fuses now minus those at the start";

/// In FERS's response, what demand 3 leaves out.
const CHKSUM: Range<usize> = 0..4;
const NEW_FUSES: Range<usize> = 20..24;

/// The clauses and their names, each after the sentence that it checks.
pub const ALL: &[Row<Clause>] = &[
    // "the partition is counted as zeroized, or every word but its indicator is as it
    // was before the first attempt", where P4 reads "marked" for "counted as zeroized"
    ("marked, or all but the indicator as at the start", |s| {
        let partition = s.partition.as_ref().filter(|partition| partition.zeroizable)?;
        let others = partition.range.start..partition.indicator().start;
        Some(partition.marked(s.cells()) || s.cells()[others.clone()] == s.start()[others])
    }),
    ("no fuse outside the partition has changed", |s| {
        let (first, end) = s.partition.as_ref().map(|p| (p.range.start, p.range.end))?;
        let (start, cells) = (s.start(), s.cells());
        Some(cells[..first] == start[..first] && cells[end..] == start[end..])
    }),
    // Neither since the start nor by this attempt; and no cell was lost.
    ("no set fuse was cleared", |s| Some(s.keeps(s.start()) && s.keeps(&s.before.drive.cells))),
    // "Once an accepted attempt runs uncut to its end, the set fuses of the partition
    // are exactly those set at the start and those that are not stuck."
    ("once accepted and uncut, set at the start or not stuck", |s| {
        let (start, marks) = (s.start(), &s.history.start.marks);
        let burned = |cell: usize| s.cells()[cell] == start[cell] | !marks[cell];
        let mut range = s.partition.as_ref()?.range.clone();
        (s.completes || s.past.completed).then(|| range.all(burned))
    }),
    ("a cut burns what is before k, the mask at k, and no more", |s| {
        s.cut_leaves().map(|expected| s.cells() == expected)
    }),
    // "it answers only that it was cut and the burns carried out, k + 1"; an uncut
    // attempt answers something else.
    ("cut is answered, with k + 1 burns, exactly if it was cut", |s| {
        let answered = match s.said {
            Said::Erasure(Erasure::Cut { burns, .. }) => Some(burns),
            _ => None,
        };
        (!s.is_restart()).then(|| answered == s.cut.map(|cut| cut.k + 1))
    }),
    ("an uncut attempt answers as if made first", |s| {
        let (said, left) = s.alone.as_ref()?;
        let answer = compared(s.said, &s.after);
        Some(answer.is_some() && answer == compared(*said, left))
    }),
    ("accepted or refused with 15, it leaves the cells as if made first", |s| {
        let (_, left) = s.alone.as_ref()?;
        let asked = s.completes || s.said.refusal() == Some(15);
        asked.then(|| s.cells() == left.drive.cells)
    }),
    ("bad map, wrong lengths, no such partition: refused, no change", |s| {
        (s.partition.is_none() && !s.is_restart()).then(|| refused_unchanged(s))
    }),
    ("not zeroizable: refused, no change", |s| {
        let zeroizable = s.partition.as_ref()?.zeroizable;
        (!zeroizable && !s.is_restart()).then(|| refused_unchanged(s))
    }),
    // "Fuses, cache, block and response stay as they were"
    ("a refusal changes nothing", |s| s.said.refusal().map(|_| s.after == s.before)),
    // P4: "15 is given exactly when no indicator fuse is set after its burn". A lower refusal
    // comes before it, and a cut of that burn does not ask.
    ("15 exactly when no indicator fuse is set after its burn", |s| {
        let mut indicator = s.partition.as_ref().filter(|p| p.zeroizable)?.indicator();
        let (before, marks) = (&s.before.drive.cells, &s.history.start.marks);
        let unset = indicator.all(|cell| before[cell] | !marks[cell] == 0);
        let lower = s.said.refusal().map_or(false, |number| number < 15);
        let asked = !s.is_restart() && !lower;
        asked.then(|| (s.said.refusal() == Some(15)) == (unset && !s.cuts_indicator()))
    }),
    // P4: "Erased now means marked with no short pair besides the indicator", which is the last
    // pair, so that it is the lowest short one exactly if no other is short; "torn means marked
    // otherwise".
    ("ended, it is erased if none is short, or the indicator first, else torn", |s| {
        let ([short_pairs, first_short, _], partition) = (s.told()?, s.partition.as_ref()?);
        let indicator = partition.indicator().start as u32;
        let passes = short_pairs == 0 || first_short == indicator;
        let (erased, torn) = (partition.erased(s.cells()), partition.torn(s.cells()));
        Some(erased == passes && (passes || torn))
    }),
    ("bytes past the response keep their values", |s| {
        let past = response_length(s.said)..;
        let [after, before] = [&s.after, &s.before].map(|l| l.response.get(past.clone()));
        matches!(s.call, Call::Mailbox(_)).then(|| after == before)
    }),
    ("a restart changes no cell", |s| s.is_restart().then(|| s.cells() == s.before.drive.cells)),
    // P5: "Demand 3 begins with all places empty, no reply awaited", and no attempt has an order.
    ("every place is empty, no reply awaited", |s| Some(s.after.cache == Cache::default())),
    // P6: "kept with the table, which a restart leaves"
    ("the table is the starting one", |s| Some(s.after.table == s.history.table)),
    // P8: "Over any number of cut and uncut attempts the sum equals set fuses after minus set fuses
    // before."
    (SUM, |s| {
        let [start, now] = [s.start(), s.cells()].map(|cells| u64::from(ones(cells)));
        Some(now == start + s.past.reported + s.reported())
    }),
];

/// The clauses that do not hold after this attempt.
pub fn broken(step: &Step) -> Vec<String> {
    tally::that_hold(ALL, |clause| clause(step) == Some(false))
}

/// The names of all clauses.
pub fn names() -> Vec<String> {
    tally::names(ALL)
}

fn refused_unchanged(step: &Step) -> bool {
    step.said.refusal().is_some() && step.cells() == step.start()
}

/// What is compared of an answer: the refusal number, or the short pairs, first short cell and
/// burns; for FERS the length of the response, its bytes, and the engine order. P8: "Demand 3's
/// answers and responses now leave out this number and the chksum": these are made 0 here, and
/// nothing else. None where the response is longer than its buffer.
fn compared(mut said: Said, left: &Lent) -> Option<(Said, Vec<u8>)> {
    if let Said::Erasure(Erasure::Erased { new_fuses, .. }) = &mut said {
        *new_fuses = 0;
    }
    let mut response = left.response.get(..response_length(said))?.to_vec();
    for left_out in [CHKSUM, NEW_FUSES] {
        response.get_mut(left_out).into_iter().for_each(|bytes| bytes.fill(0));
    }
    Some((said, response))
}

/// Bytes of the response, none on refusal.
fn response_length(said: Said) -> usize {
    match said {
        Said::Reply(Reply::Accepted { length, .. }) => length,
        _ => 0,
    }
}

impl Step<'_> {
    /// Whether every fuse of these cells is still set.
    fn keeps(&self, earlier: &[u32]) -> bool {
        let mut cells = earlier.iter().zip(self.cells());
        earlier.len() == self.cells().len() && cells.all(|(earlier, now)| earlier & !now == 0)
    }

    /// Whether the call is for a cut of the first burn.
    fn cuts_indicator(&self) -> bool {
        matches!(self.call, Call::Erase(Erase { cut: Some(Cut { k: 0, .. }), .. }))
    }

    /// Of an attempt that ran to its end: the short pairs, the first short cell and the new fuses
    /// that it answers, FERS by its response.
    fn told(&self) -> Option<[u32; 3]> {
        match self.said {
            Said::Erasure(Erasure::Erased { short_pairs, first_short, new_fuses, .. }) => {
                Some([short_pairs, first_short.unwrap_or(NO_CELL), new_fuses])
            }
            Said::Reply(Reply::Accepted { .. }) => {
                let fields = response(&self.after, response_length(self.said));
                fields.get(3..6)?.try_into().ok()
            }
            _ => None,
        }
    }

    /// The new fuses that the attempt reports; a refusal and a restart report none.
    pub fn reported(&self) -> u64 {
        let reported = match self.said {
            Said::Erasure(Erasure::Cut { new_fuses, .. }) => new_fuses,
            _ => self.told().map_or(0, |[_, _, new_fuses]| new_fuses),
        };
        reported.into()
    }

    /// What a cut leaves, by its k and its mask.
    fn cut_leaves(&self) -> Option<Vec<u32>> {
        let burned = self.partition.as_ref()?.burned(Some(self.cut?));
        let mut expected = self.before.drive.cells.clone();
        for (cell, value) in burned {
            expected[cell] |= value & !self.history.start.marks[cell];
        }
        Some(expected)
    }
}
