//! Document 01, "Refusal numbers": all fifteen, and those of document 02.

/// "Refusal numbers"
#[derive(Clone, Copy, Debug, PartialEq, Eq)]
pub enum Refusal {
    /// "map breaks a rule above"
    BadMap = 1,
    /// "cells or marks not C long; for the mailbox also block not 128 or
    /// response buffer under 20 bytes", 40 by document 02, P6, "and a table count outside 1 to 3";
    /// in the status program ("The small drive") also a length or a map that is cut short
    WrongLength = 2,
    /// "unknown code"
    UnknownCode = 3,
    /// "request not its exact length"
    RequestLength = 4,
    /// "wrong chksum"
    WrongChksum = 5,
    /// "reserved not zero"
    ReservedNotZero = 6,
    /// "no such partition, or the cell starts no word"
    NotThere = 7,
    /// "the command may not touch it (FERS: not zeroizable)"
    MayNotTouch = 8,
    /// "WRITE would clear a fuse"
    WouldClear = 9,
    /// "slot change while keys are held"
    KeysHeld = 10,
    /// "KLOD, HEK not available"
    HekNotAvailable = 11,
    /// "KLOD, tag held already"
    TagHeld = 12,
    /// "KLOD, no empty place"
    NoEmptyPlace = 13,
    /// "KUNL, tag not held"
    TagNotHeld = 14,
    /// Document 02, P4: "no indicator fuse is set after its burn"
    IndicatorUnset = 15,
    /// Document 02, P2: "text not of that form or output buffer too short"
    BadText = 16,
    /// Document 02, P5: "a mailbox command other than FSTA while a reply is awaited or a place
    /// waits"
    ReplyAwaited = 17,
    /// Document 02, P5: "KLOD or KUNL while a place is unsure"
    PlaceUnsure = 18,
    /// Document 02, P5: "a reply when none is awaited"
    NotAwaited = 19,
    /// Document 02, P6: "no such handle"
    NoHandle = 20,
    /// Document 02, P6: "numbers used up"
    NumbersUsedUp = 21,
}

impl Refusal {
    /// "Refusal numbers": the first column.
    pub fn number(self) -> u32 {
        self as u32
    }

    /// "Checked in ascending order", but for P2's "in this order: 16 [...], 1", and for P5's 17 and
    /// 18, "after 14 and before 15".
    fn order(self) -> [u32; 2] {
        match self {
            Refusal::BadText => [0, 0],
            Refusal::ReplyAwaited | Refusal::PlaceUnsure => [14, self.number()],
            _ => [self.number(), 0],
        }
    }
}

/// "Refusal numbers": of those that apply the one that is given, the first in the order in which
/// they are checked; "none is given otherwise".
pub fn first(applying: &[Refusal]) -> Option<u32> {
    applying.first().map(|refusal| refusal.number())
}

/// "Refusal numbers": the numbers of these refusals.
pub fn numbers(refusals: &[Refusal]) -> Vec<u32> {
    refusals.iter().map(|refusal| refusal.number()).collect()
}

/// "Refusal numbers": the refusals whose test says that they apply, in the order in which they are
/// checked.
pub(crate) fn that_apply(tests: impl IntoIterator<Item = (Refusal, bool)>) -> Vec<Refusal> {
    let applies = |(refusal, applies): (Refusal, bool)| applies.then_some(refusal);
    let mut applying: Vec<Refusal> = tests.into_iter().filter_map(applies).collect();
    applying.sort_by_key(|refusal| refusal.order());
    applying
}
