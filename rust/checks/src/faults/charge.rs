//! Faults of document 02's P8.

use super::made::{Fault, Made};
use crate::layout::{halves, ones, Layout};
use crate::tally::Row;
use model::mailbox::sum;
use model::{Answer, Call, Command, Cut, Erase, Erasure, Order, Reply, Said, Size};

/// Those whose reports do not add up to the fuses that are newly set.
pub(super) const OF_SUMS: [Row<Fault>; 5] = [
    ("stuck fuses counted", |m| m.recounts(|mask| mask, |was, _, value| value & !was)),
    ("fuses that were set counted", |m| {
        m.recounts(|mask| mask, |was, mark, value| value & (was | !mark))
    }),
    ("a cut that reports whole words", |m| m.recounts(|_| u64::MAX, newly_set)),
    ("a cut that leaves out the word it was cut in", |m| m.recounts(|_| 0, newly_set)),
    // A word has at most 64; of a secret one ZEROIZE tells none.
    ("new fuses in 8 bits", |m| !m.is("ZEROIZE") && m.reports(m.set_since() & 0xFF)),
];

/// The others.
pub(super) const OF_ANSWERS: [Row<Fault>; 6] = [
    ("ZEROIZE shows its new fuses in a secret partition", |m| {
        m.carries_out("ZEROIZE") && m.reports(m.set_since())
    }),
    ("ZEROIZE on the older guide counts the fuses that it tells", |m| {
        m.zeroized(true).is_some() && m.recounts(|mask| mask, |was, _, value| value & !was)
    }),
    ("READ reports the ones of its word", |m| match m.said {
        Said::Answer(Answer::Word { word, .. }) => m.is("READ") && m.reports(word.count_ones()),
        _ => false,
    }),
    ("FERS's new fuses before its first short cell", |m| {
        m.carries_out("FERS") && m.leaves(|m| m.after.response[16..24].rotate_left(4))
    }),
    ("FERS's chksum without its new fuses", |m| m.carries_out("FERS") && m.sums_up_to(20)),
    ("FERS without its last field", |m| {
        m.carries_out("FERS")
            && m.sums_up_to(20)
            && m.leaves(|m| {
                m.after.response[20..24].copy_from_slice(&m.before.response[20..24]);
                m.said = Said::Reply(Reply::Accepted { length: 20, order: Order::None });
            })
    }),
];

/// The right rule, by what a cell was, its mark, and what is burned into it.
fn newly_set(was: u32, mark: u32, value: u32) -> u32 {
    value & !mark & !was
}

impl Made<'_> {
    /// How many fuses are set that were not before the call.
    fn set_since(&self) -> u32 {
        ones(&self.after.drive.cells) - ones(&self.before.drive.cells)
    }

    /// The cells whose burns are reported, each with what is burned into it, where a cut has
    /// another mask.
    fn burned(&self, mask: fn(u64) -> u64) -> Vec<(usize, u32)> {
        let of = |partition, cut| {
            Layout::of(&self.before.drive, partition).map_or(vec![], |p| p.burned(cut))
        };
        match self.call {
            Call::Direct(Command::Write { cell, value }) => self.burned_word(*cell, *value),
            Call::Direct(Command::Zeroize { cell }) => self.burned_word(*cell, u64::MAX),
            Call::Erase(Erase { partition, cut }) => {
                of(*partition, cut.map(|cut| Cut { mask: mask(cut.mask), ..cut }))
            }
            Call::Mailbox(request) => request.partition().map_or(vec![], |named| of(named, None)),
            _ => vec![],
        }
    }

    /// The same of a single word; none of a secret one.
    fn burned_word(&self, cell: u32, value: u64) -> Vec<(usize, u32)> {
        let map = self.before.drive.map_with_cells();
        let named = map.and_then(|map| {
            let word = map.word_at(cell as usize)?;
            (!map.entries()[word.partition].secret()).then_some(word.size)
        });
        let cells = named.map_or(0, |size| if size == Size::Pair { 2 } else { 1 });
        halves(cell as usize..cell as usize + cells, value).collect()
    }

    /// Where new fuses are reported, they are counted by another mask of a cut, or by another rule.
    fn recounts(&mut self, mask: fn(u64) -> u64, rule: fn(u32, u32, u32) -> u32) -> bool {
        if self.said.refusal().is_some() {
            return false;
        }
        let drive = &self.before.drive;
        let count = |(cell, value): (usize, u32)| {
            rule(drive.cells[cell], drive.marks[cell], value).count_ones()
        };
        self.reports(self.burned(mask).into_iter().map(count).sum())
    }

    /// Where an answer has a number of new fuses, it is this one.
    fn reports(&mut self, number: u32) -> bool {
        if self.carries_out("FERS") {
            self.after.response[20..24].copy_from_slice(&number.to_le_bytes());
            return self.sums_up_to(24);
        }
        match &mut self.said {
            Said::Answer(Answer::Word { new_fuses, .. })
            | Said::Erasure(Erasure::Erased { new_fuses, .. } | Erasure::Cut { new_fuses, .. }) => {
                *new_fuses = number;
                true
            }
            _ => false,
        }
    }

    /// A response's chksum is that of so many bytes.
    fn sums_up_to(&mut self, length: usize) -> bool {
        let chksum = sum::response_chksum(&self.after.response[..length]);
        sum::put_chksum(&mut self.after.response, chksum);
        true
    }
}
