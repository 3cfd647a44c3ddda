//! Document 02, P5: a drive that goes on calling beside an engine which answers at once, late,
//! never, twice or with failures, from a cache that begins empty; and P6: it lists and rotates
//! handles, from a fresh table. What holds after every list of such calls is checked on the values
//! that a key block gives and leaves, by an account of its orders and handles, and not by the
//! model.

mod account;
mod clauses;

pub use clauses::{broken, names, Step, BACK};

use crate::calls::{answered, answers, came, commands, tables};
use crate::lent;
use crate::random::Random;
use crate::tally::Row;
use account::Account;
use model::EngineReply::{Done, Failed, TimedOut};
use model::Mail::{Clkc, Ehdl, Fers, Fsta, Klod, Kunl, Rhpk};
use model::{entry, Cache, Call, Command, Drive, EngineReply, Erase, Image, KeyBlock, Lent, Mail};
use model::{Request, Said, Table, Values, HARDWARE, SLOT_FLAGS, SOFTWARE, ZEROIZABLE};
use std::collections::BTreeSet;

const SEED: u64 = 0x5EED_0005_0017_0019;
const MOST_CALLS: usize = 24;
/// The tags of a sequence, so few that they come again or more than there are places, and how many
/// of them it loads first, answered done.
const STARTS: [(usize, usize); 8] =
    [(6, 0), (6, 0), (6, 0), (6, 0), (24, 0), (24, 0), (24, 15), (24, 16)];

/// The replies to an order, each with the calls that come before it.
type Replies = fn(&mut Random) -> Vec<(usize, EngineReply)>;

/// How the engine answers an order.
const MANNERS: &[Row<Replies>] = &[
    ("at once", |_| vec![(0, Done)]),
    ("late", |random| vec![(random.between(1, 5), Done)]),
    ("never", |_| vec![]),
    ("twice", |random| vec![(0, Done), (random.between(1, 5), Done)]),
    ("timed out", |random| vec![(random.below(4), TimedOut)]),
    ("late, after its time is out", |random| vec![(0, TimedOut), (random.between(1, 5), Done)]),
    ("failing", |random| vec![(random.below(4), Failed(random.cell()))]),
];

/// What becomes of a reply, or of an order.
const TAKEN: &str = "taken";
const TAKEN_FOR_ANOTHER: &str = "taken for the reply to another order";
const REFUSED: &str = "refused with 19";
const DROPPED: &str = "awaited until a cut or restart";
const OPEN: &str = "awaited to the end";

/// From where it has to find back.
const FULL: &str = "a full cache in the end";
const FULL_UNSURE: &str = "a full cache in the end, some place unsure";

/// Refusals that have to be met, 2 for a table over a table, and what is asked of tables.
const REFUSALS: [u32; 12] = [2, 10, 11, 12, 13, 14, 15, 17, 18, 19, 20, 21];
const OF_TABLES: [&str; 2] = ["EHDL none", "RHPK none"];

/// A reply on its way.
struct Coming {
    /// The calls that are made before it.
    calls: usize,
    reply: EngineReply,
    /// The number of its order.
    order: usize,
}

struct Player<'a, B> {
    random: Random,
    block: &'a mut B,
    lent: Lent,
    /// How many tags there are, from 0 on.
    tags: usize,
    /// Numbers of handles.
    numbers: Vec<u32>,
    account: Account,
    /// The manner of each order.
    manners: Vec<&'static str>,
    coming: Vec<Coming>,
    met: BTreeSet<String>,
}

/// Plays the sequence of this number, and shows each call. Gives all that was met, and whether the
/// cache was empty again in the end.
pub fn play<B: KeyBlock>(
    number: usize,
    block: &mut B,
    mut see: impl FnMut(&Step),
) -> (BTreeSet<String>, bool) {
    let mut random = Random::numbered(SEED, number);
    let lent = Lent { table: Table::default(), ..lent::of(drive(&mut random)) };
    let (tags, loads) = random.pick(&STARTS);
    let numbers = tables::numbers(&mut random);
    let (handles, algorithms) = tables::fresh(&mut random, &numbers);
    let (account, manners, coming, met) = (Account::default(), vec![], vec![], BTreeSet::new());
    let mut player = Player { random, block, lent, tags, numbers, account, manners, coming, met };
    player.make(Call::MakeTable { handles, algorithms }, &mut see);
    (0..loads).for_each(|tag| player.order(mail(Klod, tag as u64, 0), Done, &mut see));
    for _ in 0..player.random.between(4, MOST_CALLS) {
        player.next(&mut see);
    }
    player.find_back(&mut see);
    (player.met, player.lent.cache == Cache::default())
}

/// Everything that a run has to meet.
pub fn possible() -> Vec<String> {
    let manners = MANNERS.iter().flat_map(|(manner, _)| {
        let fates: &[&str] = match *manner {
            // A reply to an order before it may come first.
            "at once" => &[TAKEN, REFUSED, OPEN],
            "never" => &[DROPPED, OPEN],
            "twice" | "late, after its time is out" => &[TAKEN, TAKEN_FOR_ANOTHER, REFUSED, OPEN],
            _ => &[TAKEN, TAKEN_FOR_ANOTHER, REFUSED, DROPPED, OPEN],
        };
        fates.iter().map(move |fate| format!("{manner}: {fate}"))
    });
    let others = [FULL, FULL_UNSURE].into_iter().chain(OF_TABLES).map(str::to_string);
    manners.chain(answers()).chain(REFUSALS.map(refused)).chain(others).collect()
}

fn refused(number: u32) -> String {
    format!("a call refused with {number}")
}

impl<B: KeyBlock> Player<'_, B> {
    /// A reply that is due, or a call of the drive.
    fn next(&mut self, see: &mut impl FnMut(&Step)) {
        match self.coming.iter().position(|coming| coming.calls == 0) {
            Some(due) => {
                let Coming { reply, order, .. } = self.coming.remove(due);
                let open = self.account.open;
                let fate = match self.make(Call::EngineReply(reply), see).refusal() {
                    Some(_) => REFUSED,
                    None if open == Some(order) => TAKEN,
                    None => TAKEN_FOR_ANOTHER,
                };
                self.meet(order, fate);
            }
            None => {
                self.coming.iter_mut().for_each(|coming| coming.calls -= 1);
                let call = self.call();
                self.make(call, see);
            }
        }
    }

    /// Makes a call, enters it in the account, and lets the engine answer an order.
    fn make(&mut self, call: Call, see: &mut impl FnMut(&Step)) -> Said {
        let (before, was) = (self.lent.clone(), self.account.clone());
        let said = self.block.answer(&mut self.lent, &call);
        self.account.enter(&call, said, &self.lent);
        see(&Step {
            call: &call,
            before: &before,
            said,
            after: &self.lent,
            was: &was,
            now: &self.account,
        });
        if let (Call::EngineReply(reply), None, Some(awaited)) =
            (&call, said.refusal(), before.cache.awaited)
        {
            self.met.insert(answered(awaited, *reply));
        }
        let refusal = said.refusal().filter(|number| REFUSALS.contains(number));
        self.met.extend(refusal.map(refused));
        self.met.extend(Some(came(&call, said)).filter(|came| OF_TABLES.contains(&came.as_str())));
        match (was.open, self.account.open) {
            (Some(order), None) if !matches!(call, Call::EngineReply(_)) => {
                self.meet(order, DROPPED)
            }
            (_, Some(order)) if order == self.manners.len() => self.answer(order),
            _ => {}
        }
        said
    }

    /// The engine is given an order.
    fn answer(&mut self, order: usize) {
        let (manner, replies) = self.random.pick(MANNERS);
        self.manners.push(manner);
        let coming = replies(&mut self.random).into_iter();
        self.coming.extend(coming.map(|(calls, reply)| Coming { calls, reply, order }));
    }

    fn meet(&mut self, order: usize, fate: &str) {
        self.met.insert(format!("{}: {fate}", self.manners[order]));
    }

    /// Asks for an order, and hands in this reply to it, with none left to come.
    fn order(&mut self, call: Call, reply: EngineReply, see: &mut impl FnMut(&Step)) {
        self.make(call, see);
        self.make(Call::EngineReply(reply), see);
        self.coming.clear();
    }

    /// The drive gives up an awaited reply, and asks for a clear until the engine is done.
    fn find_back(&mut self, see: &mut impl FnMut(&Step)) {
        if let Some(order) = self.account.open {
            self.meet(order, OPEN);
            self.make(Call::EngineReply(TimedOut), see);
        }
        if self.lent.cache.lowest_empty().is_none() {
            let unsure = self.lent.cache.any_unsure().then(|| FULL_UNSURE.to_string());
            self.met.extend(unsure.into_iter().chain([FULL.to_string()]));
        }
        let failed = [TimedOut, Failed(0)].into_iter().take(self.random.below(3));
        for reply in failed.chain([Done]) {
            self.order(mail(Clkc, 0, 0), reply, see);
        }
    }

    /// A call of the drive. Where it can, KUNL names a tag that some place has.
    fn call(&mut self) -> Call {
        let (random, Lent { drive, cache, table, .. }) = (&mut self.random, &self.lent);
        let (tag, partition) = (random.below(self.tags) as u64, commands::partition(random, drive));
        match random.weighted(&[4, 4, 12, 1, 1, 2, 1, 1, 1, 1, 1, 6]) {
            0 if cache.any_held() => mail(Kunl, random.pick(&cache.tags()), partition),
            choice @ 0..=5 => mail([Kunl, Clkc, Klod, Fers, Fsta, Ehdl][choice], tag, partition),
            6 => Call::Direct(Command::Zeroize { cell: commands::cell(random, drive) }),
            7 => Call::Erase(Erase { partition, cut: None }),
            8 => {
                let cut = Some(commands::cut_of(random, drive, partition));
                Call::Erase(Erase { partition, cut })
            }
            9 => Call::Restart,
            10 => tables::making(random, &self.numbers),
            _ => {
                let handle = tables::handle(random, table, &self.numbers);
                Call::Mailbox(Request::of(Rhpk, &Values { handle, ..Values::default() }))
            }
        }
    }
}

fn mail(command: Mail, tag: u64, partition: u32) -> Call {
    let values = Values { tag, partition, timeout: 1000, ..Values::default() };
    Call::Mailbox(Request::of(command, &values))
}

/// Three slots, mostly programmed, and a software partition that can be erased beside held keys;
/// one indicator in eight cannot be set.
fn drive(random: &mut Random) -> Drive {
    let slots = (0..3).map(|number| entry(6 * number, 6, HARDWARE, SLOT_FLAGS));
    let entries = slots.chain([entry(18, 6, SOFTWARE, ZEROIZABLE)]).collect();
    let image = Image { cells: 24, bound: 60, entries_at: 8, entries }.bytes();
    let (mut cells, mut marks) = (vec![0; 24], vec![0; 24]);
    for first in [0, 6, 12, 18] {
        cells[first] = random.pick(&[0, 1, 1, 1]);
        if random.one_in(8) {
            marks[first + 4..first + 6].fill(u32::MAX);
        }
    }
    Drive { image, cells, marks }
}
