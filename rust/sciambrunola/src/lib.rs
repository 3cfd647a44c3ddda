//! The proved key block of a drive controller: the map of its fuses, read and
//! written, the states of its partitions, why it offers no key, direct commands on
//! its fuses, the erasure of a partition, the key cache of 16 places, the table of
//! transport handles, the mailbox, and the engine's reply to its orders.
//!
//! Every function answers for any bytes and any lengths, and a refusal changes
//! nothing that is lent. The refusal numbers (see [`refusal`]), the fields of the
//! requests, the text of a map and the lengths are those of documents 01, 02 and 003;
//! `include/sciambrunola.h` has them in short. The work itself is done by the proved
//! archive; here are only the types that make its calls safe.
//!
//! What burns fuses answers how many it newly set, for whoever plans the supply: the charge
//! that it drew is that number times the charge of one fuse. A stuck fuse draws none, nor does
//! one that was set already. [`Answer::Word`] says where the number is not shown.
//!
//! It has no memory of its own: what it keeps between calls is in a [`Context`],
//! which is the caller's. Its table is made once, by [`make_table`], before the first
//! mailbox command.
//!
//! The archive is built for x86-64 Linux (System V calling convention),
//! position-independent, with no heap, no C library and no undefined symbol, so
//! this package runs there and needs no more than `core`. Call it from ordinary
//! threads, not from interrupt handlers: it uses the red zone and the SSE registers.
//! It has no unwind tables.
#![no_std]
#![deny(missing_docs)]
#![deny(unsafe_code)]

mod answer;
mod constants;
mod context;
mod engine;
mod fields;
#[allow(unsafe_code)]
mod raw;
mod reason;
mod states;

pub use answer::{Answer, Erasure, Order, Reply};
pub use constants::{code, flag, kind, refusal};
pub use constants::{BLOCK_BYTES, CONTEXT_WORDS, HANDLES, LEAST_RESPONSE, PARTITIONS, PLACES};
pub use constants::{LONGEST_IMAGE, NO_CELL, NO_SLOT, VERSION};
pub use context::{Context, Place};
pub use engine::EngineReply;
pub use fields::Fields;
pub use reason::Reason;
pub use states::{Listing, State, States};

/// A direct command (document 01, "Direct commands"). Each names a word by its
/// first cell in the whole array.
#[derive(Clone, Copy, Debug, PartialEq, Eq)]
pub enum Command {
    /// Answers the word.
    Read {
        /// The word's first cell.
        cell: u32,
    },
    /// Burns a value into a data word; refused (8) in a marked partition (see [`State`]),
    /// among others.
    Write {
        /// The word's first cell.
        cell: u32,
        /// The value; it must have every fuse that is already set.
        value: u64,
    },
    /// Burns all ones into a word, and answers or withholds it; on the older guide see
    /// [`Answer::Word`].
    Zeroize {
        /// The word's first cell.
        cell: u32,
    },
}

/// The fields of the partition of this number, read from the map in place, with
/// those of the map's header.
pub fn partition(image: &[u8], number: u32) -> Fields {
    Fields::from_raw(raw::partition(image, number))
}

/// Writes the map that a text says to the front of `image`, and answers how many bytes
/// it has; or the refusal's number, in this order: 16 ([`refusal::TEXT`]) where the text
/// has not its form, or `image` has less than 8 bytes and 8 more for each partition's
/// line; 1 ([`refusal::MAP`]) where the map would break a rule.
///
/// The text has a first line with C and B, then a line for each partition: first cell,
/// cells, kind and flags. All are decimal numbers without leading zeros, at most 65,535,
/// with a single space between two of them, and each line ends with a line feed, the
/// last one too: `"12 60\n0 6 0 7\n6 6 1 0\n"`. With [`LONGEST_IMAGE`] bytes there is
/// room for any map. The entries begin at byte 8.
///
/// A kind or flags over 255, no partition and more than [`PARTITIONS`] are 1 where there
/// is room. A refusal writes nothing, and nothing is written past the image.
pub fn write_map(text: &[u8], image: &mut [u8]) -> Result<usize, u32> {
    match raw::write_map(text, image) {
        raw::Written { refusal: 0, bytes } => Ok(bytes as usize),
        raw::Written { refusal, .. } => Err(refusal),
    }
}

/// The state and the short pairs of every partition of the map.
///
/// The states do not depend on the marks, but marks that are not as many as the
/// map says are refused too.
pub fn states(image: &[u8], cells: &[u32], marks: &[u32]) -> States {
    States::of(image, cells, marks)
}

/// Why the drive offers no key: walks the map's slots until the first that is not
/// erased, the active one. Changes nothing.
///
/// The reason does not depend on the marks, but marks that are not as many as the
/// map says are refused too.
pub fn why(image: &[u8], cells: &[u32], marks: &[u32]) -> Reason {
    Reason::from_raw(raw::why(image, cells, marks))
}

/// Carries out a direct command on the fuses that `image` maps.
///
/// `cells` and `marks` are the fuse cells and their stuck marks. Only the
/// fuses of the word that is named may change, and none on refusal; the context
/// stays as it is.
#[inline]
pub fn direct(
    image: &[u8],
    cells: &mut [u32],
    marks: &[u32],
    context: &mut Context,
    command: Command,
) -> Answer {
    let drive = raw::Drive { image, cells, marks, context };
    Answer::from_raw(match command {
        Command::Read { cell } => raw::read(drive, cell),
        Command::Write { cell, value } => raw::write(drive, cell, value),
        Command::Zeroize { cell } => raw::zeroize(drive, cell),
    })
}

/// Erases the partition of this number: burns every fuse of it that is not
/// stuck, the indicator first, then the data words ascending, then the digest.
///
/// A short word does not stop it, nor does a short indicator. An indicator without a
/// set fuse does, with refusal 15: every fuse of it is stuck. That changes nothing, as
/// any refusal. The context stays as it is.
///
/// It may end with the partition torn: see [`Erasure::Ended`].
#[inline]
pub fn erase(
    image: &[u8],
    cells: &mut [u32],
    marks: &[u32],
    context: &mut Context,
    partition: u32,
) -> Erasure {
    Erasure::from_raw(raw::erase(raw::Drive { image, cells, marks, context }, partition))
}

/// The same erasure where the power fails at burn `k`, counted from 0: that burn
/// has `mask` in place of all ones, of which a 32-bit word takes the low 32
/// bits, nothing follows, every place of the key cache is emptied, and an awaited reply
/// of the engine is dropped; the table of handles stays. It is for trying out what a drive
/// does after a power failure, and not for a host: see [`Erasure::Cut`].
///
/// Where the erasure ends before burn `k`, or is refused, it is [`erase`], and
/// the context stays as it is.
#[inline]
pub fn erase_cut(
    image: &[u8],
    cells: &mut [u32],
    marks: &[u32],
    context: &mut Context,
    partition: u32,
    k: u32,
    mask: u64,
) -> Erasure {
    let drive = raw::Drive { image, cells, marks, context };
    Erasure::from_raw(raw::erase_cut(drive, partition, k, mask))
}

/// For when the drive has restarted, and the engine with it: empties every place of the
/// key cache and drops an awaited reply of the engine, and changes nothing else: the table
/// of handles stays.
///
/// No order is given to the engine. To free a slot in operation use KUNL or CLKC.
pub fn restart(context: &mut Context) {
    raw::restart(context);
}

/// Carries out the mailbox command that `code` names (see [`code`]), with this
/// request. The context has a table, by [`make_table`]; the block has [`BLOCK_BYTES`], the
/// response [`LEAST_RESPONSE`] or more.
///
/// An accepted command writes its response to the start of `response` and,
/// where it has an order for the engine, the engine block to `block`. Nothing
/// else changes but the key cache, by RHPK the table, and by FERS, which is [`erase`], the
/// cells; and nothing at all on refusal. FERS that is accepted has erased the partition
/// exactly if the response's short pairs are 0 or its first short cell is the indicator's;
/// its last field is the fuses that were newly set (see [`Erasure::Ended`]).
///
/// KLOD, KUNL and CLKC have an order. Hand it to the engine with the block, and the
/// engine's reply to [`engine_reply`]. Until then the place of the key waits, for CLKC
/// every place that is not empty, and every command but FSTA is refused, with 17 unless
/// one of 1 to 14 applies.
///
/// EHDL tells the handles of the table with their algorithms. RHPK replaces one by the
/// number after the greatest ever given, and tells that; where the handle is there more than
/// once, the lowest place is meant. Refused, after 18: 20 ([`refusal::NO_HANDLE`]), 21
/// ([`refusal::NUMBERS_USED_UP`]). Handles are numbers only: the drive's own firmware rotates
/// the keypair.
#[allow(clippy::too_many_arguments)]
#[inline]
pub fn mailbox(
    image: &[u8],
    cells: &mut [u32],
    marks: &[u32],
    context: &mut Context,
    code: u32,
    request: &[u8],
    response: &mut [u8],
    block: &mut [u8],
) -> Reply {
    let drive = raw::Drive { image, cells, marks, context };
    let buffers = raw::Buffers { request, response, block };
    Reply::from_raw(raw::mailbox(drive, code, buffers))
}

/// Takes the engine's reply to the order that [`mailbox`] gave last. Only the context
/// changes: no reply is awaited any more, and the places that waited are
/// - held, where the engine is done with a load;
/// - empty, where it is done with an unload or a clear;
/// - unsure, where it timed out or failed. Then KLOD and KUNL are refused, with 18 unless
///   one of 1 to 14 applies, until CLKC, answered done, has emptied them.
///
/// The error is the refusal's number, 19 ([`refusal::NOT_AWAITED`]): no reply is awaited,
/// and nothing has changed. A reply carries no number of its order: that a late one is not
/// taken for the reply to the next order is the caller's to see to.
#[inline]
pub fn engine_reply(context: &mut Context, reply: EngineReply) -> Result<(), u32> {
    let (reply, vendor) = reply.to_raw();
    unless_refused(raw::engine_reply(context, reply, vendor))
}

/// Makes the table of a context that has none, from one to [`HANDLES`] distinct handles with
/// as many algorithms; the largest handle is the greatest number ever given. Any number can
/// be a handle or an algorithm, and algorithms may be equal. Once for each drive, before its
/// first mailbox command.
///
/// From a fresh table, while only these calls change it, no number is given twice: the
/// handles that it was made of and all that RHPK gave since are distinct. The table is kept
/// in the context, and the drive has to keep that over a loss of power, saved, whole, after
/// this call and after each accepted RHPK, before a response goes to the host. From an older
/// copy, or a context made anew, numbers can be given again.
///
/// The error is the refusal's number, 2 ([`refusal::LENGTHS`]): the context has a table, also
/// one whose count is not 1 to [`HANDLES`], the handles are none or too many, the algorithms
/// are not as many, or two handles are equal. Nothing has changed.
pub fn make_table(context: &mut Context, handles: &[u32], algorithms: &[u32]) -> Result<(), u32> {
    unless_refused(raw::make_table(context, handles, algorithms))
}

/// What is answered by a refusal's number, or by 0, alone.
#[inline]
fn unless_refused(number: u32) -> Result<(), u32> {
    match number {
        0 => Ok(()),
        refusal => Err(refusal),
    }
}
