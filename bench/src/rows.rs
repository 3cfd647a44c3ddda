//! What is measured: calls, and what they find.

use checks::largest::{self, every_state, last_slot_active, last_slot_torn, TAIL};
use checks::maps::MOST_CELLS as CELLS;
use checks::{lent, small, texts};
use model::{
    Call, Drive, EngineReply, Erase, KeyBlock, Lent, Mail, Model, Request, Table, Values, HARDWARE,
    SLOT_FLAGS, SOFTWARE, ZEROIZABLE,
};
use sciambrunola::LONGEST_IMAGE;

/// How many places are held where keys are loaded, unloaded or cleared, with tags that
/// count up from the first; KUNL names the last of them.
const HELD: usize = 8;
const FIRST_TAG: u64 = 0x0123_4567_89AB_CD00;
const LAST_TAG: u64 = FIRST_TAG + HELD as u64 - 1;

/// The handles of a full table, of which RHPK names the last, and their algorithms.
const HANDLES: [u32; 3] = [0x0301, 0x0204, 0x0102];
const ALGORITHMS: [u32; 3] = [1, 2, 4];

/// A row of the table.
pub struct Row {
    /// What the table calls it.
    pub name: String,
    /// What the first call finds.
    pub start: Lent,
    /// The call. Made again it does the same work again, on what it left itself.
    pub call: Call,
    /// Whether that holds only if the cache, with the awaited reply, and the table are as they
    /// were at the start: then they are put back before each call.
    pub put_back: bool,
}

/// The states of 2,048 cells in 16 partitions, four of each state.
pub fn states() -> Row {
    row("states, 16 partitions, 2,048 cells", every_state(), Call::States)
}

/// Every row, in the order of the table.
pub fn all() -> Vec<Row> {
    let (pairs, singles) =
        (one_partition(HARDWARE, SLOT_FLAGS), one_partition(SOFTWARE, ZEROIZABLE));
    // The fields of the last partition, for which the whole map is judged.
    let last = Call::Partition(largest::LAST);
    let mut rows = vec![states(), row("map check, 16 partitions, 256 bytes", every_state(), last)];
    rows.extend(erasures("erasure, 2,048 cells in pairs", pairs));
    rows.extend(erasures("erasure, 2,048 single cells", singles));
    rows.extend(Mail::ALL.map(|command| mailbox(command, "small drive", Drive::small())));
    rows.extend(Mail::ALL.map(|command| mailbox(command, "largest map", last_slot_active())));
    rows.push(engine_reply());
    rows.push(row("why, largest map", last_slot_torn(), Call::Why));
    rows.push(write_map("small drive", small::MAP_TEXT.into()));
    rows.push(write_map("largest map", texts::spelled(&largest::slots())));
    rows
}

/// The erasure of a drive's one partition: with no pair short, and with the digest
/// short, so that the lowest short pair is looked for through all data.
fn erasures(name: &str, drive: Drive) -> [Row; 2] {
    let mut short = drive.clone();
    short.marks[CELLS - TAIL] = 0x1F;
    [("none short", drive), ("digest short", short)].map(|(what, drive)| {
        row(&format!("{name}, {what}"), drive, Call::Erase(Erase { partition: 0, cut: None }))
    })
}

/// A call with an empty cache, on a drive that it leaves fit for the same again.
fn row(name: &str, drive: Drive, call: Call) -> Row {
    Row { name: name.to_string(), start: lent::of(drive), call, put_back: false }
}

/// A mailbox call for partition 0 that is carried out.
fn mailbox(command: Mail, drive_name: &str, drive: Drive) -> Row {
    // KLOD names the tag after the last.
    let tag = if command == Mail::Klod { LAST_TAG + 1 } else { LAST_TAG };
    let (mek, handle) = ([0x6B; 64], HANDLES[2]);
    let values = Values { timeout: 1000, tag, mek, handle, ..Values::default() };
    let call = Call::Mailbox(Request::of(command, &values));
    let mut row = row(&format!("{}, {drive_name}", command.name()), drive, call);
    row.start.table = Table::fresh(&HANDLES, &ALGORITHMS).expect("they make a table");
    if matches!(command, Mail::Clkc | Mail::Klod | Mail::Kunl) {
        row.start = lent::holding(row.start, FIRST_TAG..=LAST_TAG);
        row.put_back = true;
    }
    row.put_back |= command == Mail::Rhpk;
    row
}

/// The engine is done with a clear: what CLKC leaves, where it finds the keys held.
fn engine_reply() -> Row {
    let Row { mut start, call: clear, .. } = mailbox(Mail::Clkc, "", Drive::small());
    Model.answer(&mut start, &clear);
    let call = Call::EngineReply(EngineReply::Done);
    Row { name: "engine reply, done to a clear".to_string(), start, call, put_back: true }
}

/// The map of a text, written where there is room for any.
fn write_map(name: &str, text: Vec<u8>) -> Row {
    let mut row = row(&format!("write map, {name}"), Drive::default(), Call::WriteMap(text));
    row.start.output = vec![0xA5; LONGEST_IMAGE];
    row
}

/// A drive with one partition in all 2,048 cells. Of some pairs four fuses are
/// stuck, so that they are not short once they are burned.
fn one_partition(kind: u8, flags: u8) -> Drive {
    let marks = (0..CELLS).map(|cell| if cell % 6 == 0 { 0x0F } else { 0 }).collect();
    Drive { marks, ..largest::one_partition(kind, flags) }
}
