//! The key block from Rust, on the small drive of document 01: its map and its states
//! are read; its table of handles is made, and a handle rotated; a key is loaded, and an
//! erasure refused while it is held; the engine does not answer to the load of another
//! key, and a clear recovers; an erasure is cut by a power failure, the drive restarts,
//! the next erasure ends it, and the drive is asked why it offers no key. Each step prints
//! a line or two; one that fails ends the program with a failing status. `story`, at the
//! end, tells it; the mailbox and the engine are in `mailbox.rs`.
//!
//! From the root of the repository, once the archive is built:
//!   cargo run --offline --release --manifest-path rust/Cargo.toml --bin key_block
//! Arguments, behind `--`, are stuck marks for cells 1 and 5, in hexadecimal. With 0F
//! word 0 gets 60 of its 64 ones, which is enough; with 1F it gets 59, and the slot is
//! not erased. With 0 1F the indicator gets 59, and the slot is erased all the same.
#![forbid(unsafe_code)]

mod mailbox;

use sciambrunola::{erase, erase_cut, make_table, partition, restart, states, why};
use sciambrunola::{flag, kind, refusal, BLOCK_BYTES, LEAST_RESPONSE};
use sciambrunola::{Context, EngineReply, Erasure, Fields, Reason, States};
use std::fmt::Debug;
use std::process::ExitCode;

/// The partition that holds the secret seed.
const SLOT: u32 = 0;
const SLOT_FLAGS: u8 = (flag::ZEROIZABLE + flag::SECRET + flag::SLOT) as u8;

/// The map says what lies where in the fuses. All but kind and flags are numbers
/// of two bytes, low byte first.
#[rustfmt::skip]
const MAP: [u8; 24] = [
    2, 0,  // partitions
    12, 0, // cells
    60, 0, // bound: a pair of cells with fewer ones is short
    8, 0,  // the entries begin at byte 8
    0, 0, 6, 0, kind::HARDWARE as u8, SLOT_FLAGS, 0, 0, // from cell 0 on 6 cells
    6, 0, 6, 0, kind::SOFTWARE as u8, 0, 0, 0,          // from cell 6 on 6 cells; no flags
];

/// The library has no memory of its own: all of this is ours, and lent to it for each
/// call.
struct Drive {
    /// The fuses; one is set.
    cells: [u32; 12],
    /// Their stuck marks.
    marks: [u32; 12],
    /// What the library keeps between calls: the key cache, here empty, whether the
    /// engine's reply is awaited, and the table of handles, which is still to be made.
    context: Context,
    /// The buffers of the mailbox.
    response: [u8; LEAST_RESPONSE],
    block: [u8; BLOCK_BYTES],
}

/// What a step comes to; the text says which one failed.
type Step = Result<(), String>;

/// A step that was answered otherwise than it should have been, most likely refused.
fn failed(step: &str, answer: impl Debug) -> Step {
    Err(format!("{step}: {answer:?}"))
}

fn read_map() -> Step {
    let partitions = match partition(&MAP, 0) {
        Fields::Partition { partitions, cells, bound, .. } => {
            println!("map: {partitions} partitions, {cells} cells, bound {bound}");
            partitions
        }
        other => return failed("map", other),
    };
    (0..partitions).try_for_each(read_partition)
}

fn read_partition(i: u32) -> Step {
    match partition(&MAP, i) {
        Fields::Partition { first, length, kind, flags, .. } => {
            println!(
                "partition {i}: first cell {first}, {length} cells, kind {kind}, flags {flags}"
            );
            Ok(())
        }
        other => failed("partition", other),
    }
}

impl Drive {
    fn list_states(&self) -> Step {
        let listing = match states(&MAP, &self.cells, &self.marks) {
            States::Listed(listing) => listing,
            other => return failed("states", other),
        };
        let line = (0..listing.len()).filter_map(|i| {
            let (state, short_pairs) = listing.get(i)?;
            Some(format!("{i} {}, {short_pairs} short", state.name()))
        });
        println!("states: {}", line.collect::<Vec<_>>().join("; "));
        Ok(())
    }

    /// Why the drive offers no key, for whoever has to judge it.
    fn tell_why(&self) -> Step {
        match why(&MAP, &self.cells, &self.marks) {
            Reason::Available => println!("why: the key is available"),
            Reason::NoSlot => println!("why: the map has no slot"),
            Reason::AllErased => println!("why: every slot is erased"),
            Reason::Blank { partition } => println!("why: slot {partition} is blank"),
            Reason::Torn { partition, cell, ones } => {
                println!("why: slot {partition} is torn, its pair at cell {cell} has {ones} ones");
            }
            other => return failed("why", other),
        }
        Ok(())
    }

    /// Once for each drive, before its first mailbox command. Here a drive saves the words
    /// of the context, which has the table; whenever the power is back it takes them again,
    /// then calls restart.
    fn make_table(&mut self) -> Step {
        // The algorithms are of document 003, a bit for each.
        if let Err(number) = make_table(&mut self.context, &[1, 2], &[0x1, 0x2]) {
            return failed("table", number);
        }
        println!("table: made");
        Ok(())
    }

    /// The charge that the burns drew is the number of new fuses times that of one fuse.
    fn erase(&mut self) -> Erasure {
        let erasure = erase(&MAP, &mut self.cells, &self.marks, &mut self.context, SLOT);
        match erasure {
            Erasure::Ended { short_pairs, burns, new_fuses, .. } => {
                println!("erasure: {short_pairs} short, {burns} burns, {new_fuses} new fuses");
            }
            Erasure::Refused { number, .. } => println!("erasure: refused {number}"),
            Erasure::Cut { .. } => {} // this erasure is not cut
        }
        erasure
    }

    /// While a key is held the slot must not change; nor while a place waits or is unsure.
    fn erase_with_key_held(&mut self) -> Step {
        match self.erase() {
            Erasure::Refused { number: refusal::KEYS_HELD, .. } => Ok(()),
            other => failed("erasure with a key held", other),
        }
    }

    /// Erases the slot. That the erasure ended is not enough: it has erased the slot
    /// exactly if no pair is short or the first short cell is the indicator's. Otherwise
    /// the slot is torn, and its seed may still be there; the reason then names its first
    /// short pair.
    fn erase_slot(&mut self) -> Step {
        let erasure = self.erase();
        self.list_states()?;
        self.tell_why()?;
        match erasure {
            Erasure::Ended { first_short: None, .. } => Ok(()),
            Erasure::Ended { first_short: Some(cell), .. } if is_indicator(cell) => Ok(()),
            Erasure::Ended { .. } => {
                Err("erasure: the slot is torn, its seed may still be there".to_string())
            }
            other => failed("erasure", other),
        }
    }

    /// What a power failure leaves that comes at burn 1, the first data word, when
    /// its low half has burned: for trying out what the drive does when it is back.
    fn erase_slot_cut(&mut self) -> Step {
        let Drive { cells, marks, context, .. } = self;
        match erase_cut(&MAP, cells, marks, context, SLOT, 1, 0xFFFF_FFFF) {
            Erasure::Cut { burns, new_fuses } => {
                println!("erasure cut: {burns} burns, {new_fuses} new fuses");
                Ok(())
            }
            other => failed("cut erasure", other),
        }
    }

    /// The drive is back, and the engine with it: no key is held, and no reply is awaited;
    /// the table of handles is what it was. A drive that goes on unloads its keys by KUNL
    /// or CLKC, which have an order for the engine.
    fn restart(&mut self) -> Step {
        restart(&mut self.context);
        println!("restart");
        match self.list_places() {
            0 => self.list_handles(),
            places => failed("restart, places that are not empty", places),
        }
    }
}

/// Whether the pair at this cell is the slot's indicator. That is the last pair: where it
/// is the first that is short, no other is.
fn is_indicator(cell: u32) -> bool {
    match partition(&MAP, SLOT) {
        Fields::Partition { first, length, .. } => cell == first + length - 2,
        Fields::Refused(_) => false,
    }
}

/// A mark is 1 to 8 hexadecimal digits and nothing else.
fn is_mark(text: &str) -> bool {
    (1..=8).contains(&text.len()) && text.bytes().all(|byte| byte.is_ascii_hexdigit())
}

/// The marks for cells 1 and 5 that the arguments name, 0 where there is none.
fn marks() -> Result<[u32; 2], String> {
    let mut marks = [0; 2];
    for (i, mark) in std::env::args().skip(1).enumerate() {
        if i >= marks.len() || !is_mark(&mark) {
            let usage = "usage: key_block [mark of cell 1 [mark of cell 5]], in hexadecimal";
            return Err(usage.to_string());
        }
        marks[i] = u32::from_str_radix(&mark, 16).map_err(|error| error.to_string())?;
    }
    Ok(marks)
}

fn main() -> ExitCode {
    match story() {
        Ok(()) => ExitCode::SUCCESS,
        Err(text) => {
            eprintln!("{text}");
            ExitCode::FAILURE
        }
    }
}

fn story() -> Step {
    let (mut cells, mut stuck) = ([0; 12], [0; 12]);
    cells[0] = 1;
    [stuck[1], stuck[5]] = marks()?;
    let (response, block) = ([0; LEAST_RESPONSE], [0; BLOCK_BYTES]);
    let mut drive = Drive { cells, marks: stuck, context: Context::new(), response, block };
    read_map()?;
    drive.list_states()?;
    // A table of handles is made; one handle is rotated.
    drive.make_table()?;
    drive.list_handles()?;
    drive.rotate_handle(1)?;
    drive.list_handles()?;
    drive.ask_for_status(true)?;
    // A key is loaded, and held once the engine is done.
    let mek = [0x4B; 64]; // stands for a key
    drive.load_key(1, &mek, 0)?;
    drive.engine_replies(EngineReply::Done)?;
    drive.erase_with_key_held()?;
    // The engine is silent until the timer runs out; meanwhile FSTA alone is answered.
    drive.load_key(2, &mek, 0)?;
    drive.clear_keys(refusal::AWAITING)?;
    drive.ask_for_status(true)?;
    drive.engine_replies(EngineReply::TimedOut)?;
    drive.load_key(3, &mek, refusal::UNSURE)?;
    // A clear that is done recovers.
    drive.clear_keys(0)?;
    drive.engine_replies(EngineReply::Done)?;
    // The slot is erased.
    drive.erase_slot_cut()?;
    drive.restart()?;
    drive.list_states()?;
    drive.erase_slot()?;
    drive.ask_for_status(false)
}
