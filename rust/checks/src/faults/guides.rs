//! Faults of document 02's P7.

use super::made::{Fault, Made};
use crate::tally::Row;
use model::{fuse, Answer, Call, Said, Size, Word};

pub(super) const ALL: [Row<Fault>; 6] = [
    ("64 ones for a narrow word", |m| m.tells(true, Size::Cell, |_| u64::MAX)),
    ("32 ones for a pair", |m| m.tells(true, Size::Pair, |_| 0xFFFF_FFFF)),
    ("the word as it stands on the older guide", |m| m.tells(true, Size::Pair, |stands| stands)),
    ("all ones on the newer guide", |m| m.tells(false, Size::Pair, |_| u64::MAX)),
    ("no withholding on the older guide", |m| {
        let withheld = m.said == Said::Answer(Answer::Withheld);
        withheld && m.zeroized(true).is_some() && m.shows(u64::MAX)
    }),
    ("the answered word burned", |m| match m.zeroized(true) {
        Some((cell, Word { size, .. })) => {
            let unmarked = vec![0; m.after.drive.marks.len()];
            fuse::burn_word(&mut m.after.drive.cells, &unmarked, cell, size, u64::MAX);
            true
        }
        None => false,
    }),
];

/// Of a ZEROIZE that was carried out.
impl Made<'_> {
    /// The word that it names, in a partition on the older guide or not.
    pub(super) fn zeroized(&self, older: bool) -> Option<(usize, Word)> {
        let Call::Direct(command) = self.call else { return None };
        let map = self.before.drive.map().filter(|_| self.carries_out("ZEROIZE"))?;
        let word = map.word_at(command.cell())?;
        let guide = map.entries()[word.partition].older_guide();
        (guide == older).then_some((command.cell(), word))
    }

    /// A word of this size that is answered is answered so, by what stands there.
    fn tells(&mut self, older: bool, size: Size, told: fn(u64) -> u64) -> bool {
        match (self.zeroized(older), self.said) {
            (Some((cell, word)), Said::Answer(Answer::Word { .. })) if word.size == size => {
                self.shows(told(fuse::word(&self.after.drive.cells, cell, size)))
            }
            _ => false,
        }
    }

    fn shows(&mut self, word: u64) -> bool {
        let new_fuses = match self.said {
            Said::Answer(Answer::Word { new_fuses, .. }) => new_fuses,
            _ => 0,
        };
        self.said = Said::Answer(Answer::Word { word, new_fuses });
        true
    }
}
