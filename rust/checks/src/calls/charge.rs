//! Sights of document 02's P8: what burns report, over stuck fuses and over fuses that are set.

use super::met::Seen;
use super::sights::Sight;
use crate::layout::{is_burned_in_part, is_stuck, ones, would_burn, Layout};
use crate::tally::Row;
use model::{fuse, Answer, Call, Command, Erase, Erasure, Said};

pub const ALL: &[Row<Sight>] = &[
    ("WRITE tells new fuses, another of its value stuck", |s| {
        s.tells("WRITE word", |b| b.new > 0 && b.sticks())
    }),
    ("WRITE tells new fuses over set ones", |s| s.tells("WRITE word", |b| b.new > 0 && b.was > 0)),
    ("WRITE tells no new fuse", |s| s.tells("WRITE word", |b| b.new == 0)),
    ("ZEROIZE tells new fuses, others stuck", |s| {
        s.tells("ZEROIZE word", |b| b.new > 0 && b.sticks())
    }),
    ("ZEROIZE tells new fuses over set ones", |s| {
        s.tells("ZEROIZE word", |b| b.new > 0 && b.was > 0)
    }),
    ("ZEROIZE tells more than 32 new fuses", |s| s.tells("ZEROIZE word", |b| b.new > 32)),
    ("ZEROIZE tells no new fuse, and there is none", |s| {
        s.tells("ZEROIZE word", |b| b.new == 0 && b.was == b.stands)
    }),
    ("ZEROIZE shows a secret word, and not its new fuses", |s| {
        s.tells("ZEROIZE word", |b| b.new == 0 && b.was != b.stands)
    }),
    ("older guide: ZEROIZE tells new fuses, others stuck", |s| {
        s.older() && s.tells("ZEROIZE word", |b| b.new > 0 && b.sticks())
    }),
    ("cut told with a part of its last word", |s| {
        s.adds_up("cut erasure cut", |p, _| s.in_part(p))
    }),
    ("cut told with no new fuse", |s| s.adds_up("cut erasure cut", |_, new| new == 0)),
    ("erasure told with new fuses, others stuck and others set", |s| {
        s.adds_up("erasure erased", |p, new| {
            let [before, after] = [&s.before.drive, &s.after.drive];
            new > 0 && is_stuck(after, p.range.clone()) && ones(&before.cells[p.range.clone()]) > 0
        })
    }),
    ("erasure told with more than 255 new fuses", |s| {
        s.adds_up("erasure erased", |_, new| new > 255)
    }),
    ("erasure told with no new fuse", |s| s.adds_up("erasure erased", |_, new| new == 0)),
    ("erasure of a slot told with new fuses", |s| {
        s.adds_up("erasure erased", |p, new| p.slot && new > 0)
    }),
    ("FERS told with new fuses", |s| s.came == "FERS none" && s.after.response[20..24] != [0; 4]),
    ("FERS told with no new fuse", |s| s.came == "FERS none" && s.after.response[20..24] == [0; 4]),
    ("15, which reports none, where other words would burn", |s| {
        s.refused(15)
            && s.partition().map_or(false, |p| would_burn(&s.after.drive, p.range.clone()))
    }),
];

/// A word that a direct command was answered with.
struct Burned {
    /// The new fuses that are told.
    new: u32,
    /// What the word was, its marks, what was burned into it, and what it is now.
    was: u64,
    marks: u64,
    value: u64,
    stands: u64,
}

impl Burned {
    /// Whether a fuse of the value is stuck, and not set.
    fn sticks(&self) -> bool {
        self.value & self.marks & !self.was != 0
    }
}

impl Seen<'_> {
    /// Whether a direct command came to a word of which this holds.
    fn tells(&self, came: &str, holds: fn(&Burned) -> bool) -> bool {
        self.came == came && self.burned().map_or(false, |burned| holds(&burned))
    }

    fn burned(&self) -> Option<Burned> {
        let (Call::Direct(command), Said::Answer(Answer::Word { new_fuses: new, .. })) =
            (self.call, self.said)
        else {
            return None;
        };
        let named = self.named?;
        let word = |of: &[u32]| fuse::word(of, command.cell(), named.word.size);
        let value = match command {
            Command::Write { value, .. } => *value,
            _ => named.word.size.all_ones(),
        };
        let drive = &self.before.drive;
        let (was, marks) = (word(&drive.cells), word(&drive.marks));
        Some(Burned { new, was, marks, value, stands: named.stands })
    }

    /// Whether an erasure came to this, and this holds of its partition and the new fuses it tells.
    fn adds_up(&self, came: &str, holds: impl Fn(&Layout, u32) -> bool) -> bool {
        let Said::Erasure(Erasure::Erased { new_fuses, .. } | Erasure::Cut { new_fuses, .. }) =
            self.said
        else {
            return false;
        };
        self.came == came && self.partition().map_or(false, |p| holds(p, new_fuses))
    }

    /// Whether a cut set a part of its last word.
    fn in_part(&self, partition: &Layout) -> bool {
        match self.call {
            Call::Erase(Erase { cut: Some(cut), .. }) => {
                let word = partition.order()[cut.k as usize].clone();
                is_burned_in_part([&self.before.drive, &self.after.drive], word)
            }
            _ => false,
        }
    }
}
