//! Demand 3: lists of attempts to erase one partition, and of restarts, which are generated; and
//! P8's sum of the fuses that they newly set.
//!
//! Document 01, "Erasing a partition", says what an attempt is and what holds after each. The
//! clauses are checked on the values that a key block gives and leaves, not by the model; that
//! every call is the model's is checked besides.

mod clauses;
mod play;

pub use clauses::{names, SUM};
pub use play::{all_hold, broken_clauses, possible};

use crate::calls::{commands, requests};
use crate::random::Random;
use crate::{drives, lent, maps};
use model::{Call, Drive, Erase, Lent, Table};

/// "The list starts from an empty cache and any cells and marks. Map, marks and
/// partition number stay the same". P5: "all places empty, no reply awaited". P6: a table.
#[derive(Clone, Debug)]
pub struct History {
    pub start: Drive,
    pub table: Table,
    pub partition: u32,
    pub attempts: Vec<Attempt>,
}

/// "its erasure, its cut erasure with any k and mask, FERS naming it, and FERS
/// refused by a number up to 6", or a restart.
#[derive(Clone, Debug)]
pub struct Attempt {
    pub call: Call,
    /// The engine block and the response buffer; only FERS needs them.
    pub buffers: (Vec<u8>, Vec<u8>),
}

const SEED: u64 = 0x5EED_0003_0059_0015;
const MOST_ATTEMPTS: usize = 12;

impl History {
    /// A history that is made again by its number alone.
    pub fn numbered(number: usize) -> History {
        let mut random = Random::numbered(SEED, number);
        let start = drive(&mut random);
        // Without a table FERS is refused (2).
        let table = if random.one_in(16) { Table::default() } else { lent::table() };
        let partition = commands::partition(&mut random, &start);
        let count = random.between(1, MOST_ATTEMPTS);
        let mut history = History { start, table, partition, attempts: vec![] };
        history.attempts = (0..count).map(|_| attempt(&mut random, &history)).collect();
        history
    }

    /// The drive and the table at the start, and nothing else kept yet.
    pub fn lent(&self) -> Lent {
        Lent { drive: self.start.clone(), table: self.table.clone(), ..Lent::default() }
    }
}

/// Mostly a drive of a few cells. Some are large, or have a bad map or wrong
/// lengths; some have no stuck fuse, or any.
fn drive(random: &mut Random) -> Drive {
    let way = random.below(200);
    let image = match way {
        0 => maps::largest(random),
        1..=3 => maps::good(random),
        _ => maps::compact(random),
    };
    let damaged = (4..=13).contains(&way);
    let bytes = if damaged { maps::damaged(random, image) } else { image.bytes() };
    let mut drive = drives::to_burn(random, bytes);
    match way {
        14..=19 => drives::damage_lengths(random, &mut drive),
        20..=59 => drive.marks.fill(0),
        60..=79 => drive.marks = random.cells(drive.marks.len()),
        80..=84 => drive.marks.fill(u32::MAX),
        _ => {}
    }
    drive
}

fn attempt(random: &mut Random, history: &History) -> Attempt {
    let partition = history.partition;
    let call = match random.weighted(&[4, 8, 4, 3, 3]) {
        0 => Call::Erase(Erase { partition, cut: None }),
        1 => {
            let cut = Some(commands::cut_of(random, &history.start, partition));
            Call::Erase(Erase { partition, cut })
        }
        2 => return right_fers(random, partition),
        3 => return refused_fers(random, history),
        _ => Call::Restart,
    };
    Attempt { call, buffers: Default::default() }
}

/// "FERS naming it"
fn right_fers(random: &mut Random, partition: u32) -> Attempt {
    let call = Call::Mailbox(requests::fers(partition));
    Attempt { call, buffers: requests::buffers(random) }
}

/// "FERS refused by a number up to 6", which may name any partition. One that
/// turns out to have nothing wrong names the history's own.
fn refused_fers(random: &mut Random, history: &History) -> Attempt {
    let other = commands::partition(random, &history.start);
    let named = random.pick(&[history.partition, other]);
    let call = Call::Mailbox(requests::spoiled_fers(random, named));
    let (mut block, mut response) = requests::buffers(random);
    if random.one_in(3) {
        requests::damage_buffers(random, &mut block, &mut response);
    }
    let lent = Lent { block, response, ..history.lent() };
    if call.applying(&lent).iter().all(|refusal| refusal.number() > 6) {
        return right_fers(random, history.partition);
    }
    Attempt { call, buffers: (lent.block, lent.response) }
}
