//! The model held to the sentences and numbers of document 01, a file for each
//! section, and to those of document 02's P4, P5, P6 and P8 where they change them. Every expected
//! value is a document's, or follows from its rules.

mod direct_commands;
mod erasure;
mod mailbox;
mod reading;
mod refusal_order;
mod slots;
mod small_drive;

use model::cache::{Awaited, Cache, Place};
use model::direct::{direct, Answer, Command};
use model::drive::Drive;
use model::erasure::{erase, Cut, Erase, Erasure};
use model::handles::{Handle, Table};
use model::image::{entry, Image, SLOT_FLAGS};
use model::lent::Lent;
use model::mailbox::fields::Command as Mail;
use model::mailbox::request::{Request, Values};
use model::mailbox::{mailbox, Order, Reply};
use model::map::{HARDWARE, LIFE_CYCLE, SECRET, SOFTWARE, ZEROIZABLE};

/// A cell with every fuse set.
const ALL: u32 = u32::MAX;

/// Cells by their numbers, each with its fuses or its mark.
type Cells<'a> = &'a [(usize, u32)];

/// "The small drive", but for these cells and marks. Block and response buffer
/// hold bytes that no answer has; the cache is empty, and the table has one handle.
fn small(cells: Cells, marks: Cells) -> Lent {
    let (block, response) = (vec![0xB1; 128], vec![0xA5; 44]);
    let mut table = Table { count: 1, greatest: 5, ..Table::default() };
    table.handles[0] = Handle { number: 5, algorithm: 1 };
    with(&Lent { drive: Drive::small(), table, block, response, ..Lent::default() }, cells, marks)
}

/// A drive with a partition of each sort: a slot, a zeroizable hardware and a
/// zeroizable software partition, life cycle, a secret partition that is not
/// zeroizable, and a gap; bound 60, no key held, no fuse or mark but these.
fn every_sort(cells: Cells, marks: Cells) -> Lent {
    let entries = vec![
        entry(0, 6, HARDWARE, SLOT_FLAGS),
        entry(6, 6, HARDWARE, ZEROIZABLE),
        entry(12, 6, SOFTWARE, ZEROIZABLE),
        entry(18, 4, LIFE_CYCLE, 0),
        entry(22, 4, HARDWARE, SECRET),
    ];
    let image = Image { cells: 28, bound: 60, entries_at: 8, entries }.bytes();
    let drive = Drive { image, cells: vec![0; 28], marks: vec![0; 28] };
    with(&Lent { drive, ..small(&[], &[]) }, cells, marks)
}

/// The same drive with these cells and marks.
fn with(lent: &Lent, cells: Cells, marks: Cells) -> Lent {
    let mut lent = lent.clone();
    cells.iter().for_each(|(cell, fuses)| lent.drive.cells[*cell] = *fuses);
    marks.iter().for_each(|(cell, mark)| lent.drive.marks[*cell] = *mark);
    lent
}

/// The same drive with a key held in this place.
fn held(mut lent: Lent, place: usize) -> Lent {
    lent.cache.places[place] = Place::Held(7);
    lent
}

fn read(cell: u32) -> Command {
    Command::Read { cell }
}

fn write(cell: u32, value: u64) -> Command {
    Command::Write { cell, value }
}

fn zeroize(cell: u32) -> Command {
    Command::Zeroize { cell }
}

/// No indicator fuse is set after its burn: "one burn is reported".
const STOPPED: Erasure = Erasure::Refused { number: 15, burns: 1 };

fn uncut(partition: u32) -> Erase {
    Erase { partition, cut: None }
}

fn cut(partition: u32, k: u32, mask: u64) -> Erase {
    Erase { partition, cut: Some(Cut { k, mask }) }
}

fn fers(partition: u32) -> Request {
    Request::of(Mail::Fers, &Values { partition, ..Values::default() })
}

fn erased(short_pairs: u32, first_short: Option<u32>, burns: u32, new_fuses: u32) -> Erasure {
    Erasure::Erased { short_pairs, first_short, burns, new_fuses }
}

fn was_cut(burns: u32, new_fuses: u32) -> Erasure {
    Erasure::Cut { burns, new_fuses }
}
