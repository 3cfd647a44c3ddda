//! What the key block answers (document 01, "Direct commands", "Erasing a
//! partition" and "Mailbox"; document 02, P8).

use crate::constants::NO_CELL;
use crate::raw;

/// What a direct command answers.
#[must_use = "it may be refused"]
#[derive(Clone, Copy, Debug, PartialEq, Eq)]
pub enum Answer {
    /// A word is shown.
    Word {
        /// The word, as it stands after the command; one of 32 bits has zeros above them.
        ///
        /// In a partition on the older guide
        /// ([`flag::OLDER_GUIDE`](crate::flag::OLDER_GUIDE)) ZEROIZE answers all ones at the
        /// word's width instead, 32 or 64, though stuck fuses may be unset. Whether a partition
        /// is erased its state tells, and not this word: see [`states`](crate::states).
        word: u64,
        /// The fuses of the word that WRITE or ZEROIZE newly set, on the older guide too: the
        /// charge that the burn drew is this number times that of a fuse.
        ///
        /// 0 where the answer has no such number: READ's, which burns nothing, and ZEROIZE's in
        /// a secret partition, which may have drawn charge all the same. It is not shown there,
        /// since it would tell how many fuses of a word of the seed were unset.
        new_fuses: u32,
    },
    /// Carried out; a word of a secret partition is not shown, nor how many of its fuses
    /// are new.
    Done,
    /// ZEROIZE was carried out, but too few fuses of the secret word are set
    /// for it to be shown; on the older guide too. How many are new is not shown.
    Withheld,
    /// Refused with this number; nothing has changed.
    Refused(u32),
}

/// What an erasure answers.
#[must_use = "that it ended is not enough: it erased only if no pair but the indicator is short"]
#[derive(Clone, Copy, Debug, PartialEq, Eq)]
pub enum Erasure {
    /// Ran to its end: every fuse of the partition that is not stuck is set.
    ///
    /// The partition is erased exactly if `short_pairs` is 0 or `first_short` is the
    /// indicator's cell: the indicator is the last pair, so that no other is short then.
    /// Otherwise it is torn, and its seed may still be there. With the fields of
    /// [`partition`](crate::partition) the indicator's cell is `first + length - 2`.
    /// To ask for no short pair at all fails good drives; to take `Ended` alone passes
    /// torn ones.
    Ended {
        /// The pairs with fewer ones than the map's bound, those of digest and
        /// indicator included.
        short_pairs: u32,
        /// The first cell of the lowest of them, in the whole array; none if there is none.
        first_short: Option<u32>,
        /// The burns carried out, one for each word.
        burns: u32,
        /// The fuses that these burns newly set: the charge that the erasure drew is this
        /// number times that of a fuse. Over any erasures of a partition, cut and refused ones
        /// among them, the sum is the set fuses after the last minus those before the first,
        /// while nothing else changes the cells.
        ///
        /// A secret partition is told so too: how many fuses of all its words together, the
        /// seed's among them, were unset before, stuck ones aside.
        new_fuses: u32,
    },
    /// The power failed; every place of the key cache is empty, and no reply of the engine
    /// is awaited. Erase again.
    Cut {
        /// The burns carried out, the one that was cut included.
        burns: u32,
        /// The fuses that these burns newly set, of the one that was cut at most the mask's. A
        /// secret partition is told so too: a mask of one fuse tells whether that was unset.
        new_fuses: u32,
    },
    /// Refused; nothing has changed, and no fuse is new.
    Refused {
        /// The refusal's number.
        number: u32,
        /// The burns carried out: 1 if the number is 15, that of the indicator, which
        /// set no fuse; else 0.
        burns: u32,
    },
}

/// What the encryption engine is to do. It is handed over with the engine block, and the
/// engine's reply to [`engine_reply`](crate::engine_reply).
#[must_use = "the engine has to be given the order, and its reply is awaited"]
#[derive(Clone, Copy, Debug, PartialEq, Eq)]
pub enum Order {
    /// Nothing; no reply is awaited for it.
    None,
    /// Clear every key.
    Clear {
        /// The timeout that the request names.
        timeout: u32,
    },
    /// Load the key in the engine block.
    Load {
        /// The place of the cache that its tag took.
        place: u32,
        /// The timeout that the request names.
        timeout: u32,
    },
    /// Unload the key whose tag is in the engine block.
    Unload {
        /// The place of the cache that has its tag.
        place: u32,
        /// The timeout that the request names.
        timeout: u32,
    },
}

/// What the mailbox answers.
#[must_use = "a command may be refused, and the engine has to be given its order"]
#[derive(Clone, Copy, Debug, PartialEq, Eq)]
pub enum Reply {
    /// Refused with this number; nothing has changed.
    Refused(u32),
    /// Carried out.
    Accepted {
        /// The bytes of the response, at the start of the response buffer.
        length: usize,
        /// What the encryption engine is to do.
        order: Order,
    },
}

impl Answer {
    #[inline]
    pub(crate) fn from_raw(answer: raw::Answer) -> Answer {
        match answer.kind {
            raw::WORD => Answer::Word { word: answer.word, new_fuses: answer.new_fuses },
            raw::DONE => Answer::Done,
            raw::WITHHELD => Answer::Withheld,
            _ => Answer::Refused(answer.refusal),
        }
    }
}

impl Erasure {
    #[inline]
    pub(crate) fn from_raw(erasure: raw::Erasure) -> Erasure {
        let raw::Erasure { kind, refusal, short_pairs, first_short, burns, new_fuses } = erasure;
        let first_short = (first_short != NO_CELL).then_some(first_short);
        match kind {
            raw::ENDED => Erasure::Ended { short_pairs, first_short, burns, new_fuses },
            raw::CUT => Erasure::Cut { burns, new_fuses },
            _ => Erasure::Refused { number: refusal, burns },
        }
    }
}

impl Reply {
    #[inline]
    pub(crate) fn from_raw(reply: raw::Reply) -> Reply {
        let raw::Reply { place, timeout, .. } = reply;
        if reply.refusal != 0 {
            return Reply::Refused(reply.refusal);
        }
        let order = match reply.order {
            raw::CLEAR => Order::Clear { timeout },
            raw::LOAD => Order::Load { place, timeout },
            raw::UNLOAD => Order::Unload { place, timeout },
            _ => Order::None,
        };
        Reply::Accepted { length: reply.length as usize, order }
    }
}
