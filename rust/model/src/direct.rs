//! Document 01, "Direct commands", as P4 of document 02 changes WRITE, P7 ZEROIZE, and P8 both.

use crate::fuse;
use crate::lent::Lent;
use crate::map::{Map, Part, Size, Word, LIFE_CYCLE};
use crate::partition::Partition;
use crate::refusal::{self, Refusal};

/// "READ, WRITE with a value, or ZEROIZE, each naming a word", by its first cell.
#[derive(Clone, Copy, Debug, PartialEq, Eq)]
#[allow(missing_docs)]
pub enum Command {
    Read { cell: u32 },
    Write { cell: u32, value: u64 },
    Zeroize { cell: u32 },
}

/// "the answer is a word, done, withheld, or refused with its number".
#[derive(Clone, Copy, Debug, PartialEq, Eq)]
pub enum Answer {
    /// A word.
    Word {
        /// The word; one of 32 bits has zeros above them.
        word: u64,
        /// P8: "the number of fuses it newly set, ZEROIZE and WRITE answer it beside their word".
        /// 0 where the answer has no such number: READ's, which burns nothing, and, since "In a
        /// secret partition WRITE and ZEROIZE do not show it", that of a secret word.
        new_fuses: u32,
    },
    /// Carried out, and the word of a secret partition is not shown.
    Done,
    /// Carried out, and the word of a secret partition did not reach the bound.
    Withheld,
    /// Refused with this number.
    Refused(u32),
}

impl Command {
    /// "Direct commands": the first cell of the word that the command names.
    pub fn cell(self) -> usize {
        let (Command::Read { cell } | Command::Write { cell, .. } | Command::Zeroize { cell }) =
            self;
        cell as usize
    }
}

/// "Direct commands": the answer, and everything lent as the command leaves it.
pub fn direct(before: &Lent, command: Command) -> (Answer, Lent) {
    let mut after = before.clone();
    let answer = match refusal::first(&applying(before, command)) {
        Some(number) => Answer::Refused(number),
        None => carry_out(&mut after, command),
    };
    (answer, after)
}

/// "Direct commands": a command to which no refusal applies.
fn carry_out(lent: &mut Lent, command: Command) -> Answer {
    let drive = &mut lent.drive;
    let map = drive.map().expect("the map is good");
    let word = map.word_at(command.cell()).expect("the cell starts a word");
    let mut burn =
        |value| fuse::burn_word(&mut drive.cells, &drive.marks, command.cell(), word.size, value);
    let newly_set = match command {
        Command::Read { .. } => 0,
        Command::Write { value, .. } => burn(value),
        // "ZEROIZE burns all ones"; of them, a word of 32 bits takes the low 32.
        Command::Zeroize { .. } => burn(u64::MAX),
    };
    let now_stands = fuse::word(&drive.cells, command.cell(), word.size);
    let reaches_bound = u64::from(now_stands.count_ones()) >= map.bound();
    let entry = map.entries()[word.partition];
    let secret = entry.secret();
    // P8: "In a secret partition WRITE and ZEROIZE do not show it."
    let new_fuses = if secret { 0 } else { newly_set };
    match command {
        // "the word as it now stands, or done in a secret partition"
        Command::Write { .. } if secret => Answer::Done,
        // "in a secret partition only if its ones reach B, otherwise withheld"
        Command::Zeroize { .. } if secret && !reaches_bound => Answer::Withheld,
        // P7: "the answer is all ones at the word's width, stuck fuses or not"
        Command::Zeroize { .. } if entry.older_guide() => {
            Answer::Word { word: word.size.all_ones(), new_fuses }
        }
        _ => Answer::Word { word: now_stands, new_fuses },
    }
}

/// "Refusal numbers": every refusal that applies to the command, each tested by
/// itself. A test with nothing to go by does not apply: without a good map
/// there are no words, and without C cells there are no fuses.
pub fn applying(lent: &Lent, command: Command) -> Vec<Refusal> {
    let map = lent.drive.map();
    let word = map.as_ref().and_then(|map| map.word_at(command.cell()));
    let mut tests = vec![
        (Refusal::BadMap, map.is_none()),
        (Refusal::WrongLength, lent.drive.lengths_are_wrong()),
        (Refusal::NotThere, map.is_some() && word.is_none()),
    ];
    if let (Some(map), Some(word)) = (map, word) {
        let slot = map.entries()[word.partition].slot();
        let changes = !matches!(command, Command::Read { .. });
        let fuses = Some(&lent.drive.cells[..]).filter(|cells| cells.len() == map.cells());
        tests.push((Refusal::MayNotTouch, may_not_touch(fuses, &map, word, command)));
        tests.push((Refusal::WouldClear, would_clear(fuses, word, command)));
        // "WRITE, ZEROIZE and erasure on a slot are refused (10) while any place is held."
        tests.push((Refusal::KeysHeld, changes && slot && lent.cache.any_held()));
    }
    refusal::that_apply(tests)
}

/// The refusals with 8.
fn may_not_touch(fuses: Option<&[u32]>, map: &Map, word: Word, command: Command) -> bool {
    let entry = map.entries()[word.partition];
    let marked = |cells| Partition::of(map, word.partition, cells).marked();
    match command {
        // "Every word of a secret partition is refused (8)."
        Command::Read { .. } => entry.secret(),
        // "Refused (8): digest (in kind 1 this is ours), indicator, life cycle, a
        // partition counted as zeroized, a value over 32 bits for a 32-bit word." P4: "WRITE is
        // refused (8) on a marked partition", and one that is counted as zeroized is marked.
        Command::Write { value, .. } => {
            word.part == Part::Digest
                || word.part == Part::Indicator
                || entry.kind == LIFE_CYCLE
                || fuses.map_or(false, marked)
                || (word.size == Size::Cell && value > 0xFFFF_FFFF)
        }
        // "any word of a zeroizable partition, else 8"
        Command::Zeroize { .. } => !entry.zeroizable(),
    }
}

/// "Refused (9): the value lacks a set fuse."
fn would_clear(fuses: Option<&[u32]>, word: Word, command: Command) -> bool {
    let set = fuses.map_or(0, |cells| fuse::word(cells, command.cell(), word.size));
    matches!(command, Command::Write { value, .. } if set & !value != 0)
}
