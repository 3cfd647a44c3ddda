//! What a sequence of calls plays on: a drive, a cache, a table and a choice of tags and
//! handles, with the calls that come one after the other.

use super::{commands, requests, tables};
use crate::context::REPLIES;
use crate::random::Random;
use crate::texts::{self, Text};
use crate::{drives, maps};
use model::direct::Command::{Read, Zeroize};
use model::EngineReply::{Done, Failed, TimedOut};
use model::Place::{self, Empty, Held, Unsure, Waiting};
use model::{Cache, Call, Drive, EngineReply, Erase, Lent, Mail, PARTITIONS, PLACES};

const SEED: u64 = 0x5EED_0C11_0016_0128;
const TAGS: usize = 24;

/// How often each call is made, in parts of the sum: fields, states, why, place, map; READ,
/// WRITE, ZEROIZE; erasure, cut erasure, restart, engine reply, table; then the mailbox commands
/// in the order of the document's table, CLKC, KLOD, KUNL, FERS, FSTA, and EHDL, RHPK.
type Mood = [usize; 20];

const MOODS: [Mood; 4] = [
    // Many loads, which fill the cache.
    [4, 4, 3, 2, 2, 4, 8, 6, 1, 1, 1, 2, 1, 1, 40, 12, 3, 5, 2, 5],
    // Many burns of single words.
    [4, 4, 3, 2, 2, 12, 40, 16, 1, 1, 1, 2, 1, 4, 4, 4, 1, 8, 2, 5],
    // Some of each.
    [4, 4, 3, 2, 2, 10, 20, 12, 2, 2, 2, 2, 1, 2, 20, 12, 2, 8, 2, 5],
    // Many erasures, with loads between them.
    [4, 4, 3, 2, 2, 4, 8, 6, 10, 30, 6, 2, 1, 1, 10, 4, 20, 5, 2, 5],
];

/// The places of WRITE, of the erasure, of the engine's reply, of the table and of CLKC, the first
/// mailbox command, among them.
const WRITE: usize = 6;
const ERASURE: usize = 8;
const REPLY: usize = 11;
const MAKE_TABLE: usize = 12;
const CLKC: usize = 13;

/// A sequence of calls, made again by its number alone.
pub struct Scene {
    random: Random,
    mood: Mood,
    tags: Vec<u64>,
    /// Numbers of handles.
    numbers: Vec<u32>,
    /// What the last call left; the next one gets other buffers and arrays.
    lent: Lent,
    /// How many calls the sequence has.
    pub calls: usize,
}

impl Scene {
    /// On a drive that is changed first.
    pub fn on(number: usize, change: impl Fn(&mut Random, &mut Drive)) -> Scene {
        let mut random = Random::numbered(SEED, number);
        let mood = random.pick(&MOODS);
        let tags = tags(&mut random);
        let cache = cache(&mut random, &tags);
        let numbers = tables::numbers(&mut random);
        let table = tables::any(&mut random, &numbers);
        let mut drive = drive(&mut random);
        change(&mut random, &mut drive);
        let calls = random.between(60, 120);
        let lent = Lent { drive, cache, table, ..Lent::default() };
        Scene { random, mood, tags, numbers, lent, calls }
    }

    /// The drive as it stands, with nothing damaged for a call.
    pub fn drive(&self) -> &Drive {
        &self.lent.drive
    }

    /// Any cache with the sequence's tags.
    pub fn any_cache(&mut self) -> Cache {
        any_cache(&mut self.random, &self.tags)
    }

    /// The next call with what it is lent. Some calls find something damaged, for them alone.
    pub fn next_call(&mut self) -> (Call, Lent) {
        let call = self.call();
        let mut lent = self.lent(&call);
        if self.random.one_in(12) {
            damage(&mut self.random, &mut lent);
            if self.random.one_in(3) {
                damage(&mut self.random, &mut lent);
            }
        }
        (call, lent)
    }

    /// Goes on from what a call left, unless the call was lent something damaged, which may have
    /// had a good map of its own. Damaged marks, and a table that is none, are the call's alone.
    pub fn go_on(&mut self, mut after: Lent) {
        let drive = &mut self.lent.drive;
        let same_lengths = after.drive.cells.len() == drive.cells.len();
        if same_lengths && after.drive.image == drive.image {
            after.drive.marks = std::mem::take(&mut drive.marks);
            if after.table.listed().is_none() {
                after.table = std::mem::take(&mut self.lent.table);
            }
            self.lent = after;
        }
    }

    /// Which call is made. A third of those while a reply is awaited are the reply, and a sixth of
    /// those while a place is unsure are CLKC, so that sequences get on. A sixth of those while a
    /// reply is awaited with every place empty are WRITE or an erasure, which few would be. A sixth
    /// of those without a table make one.
    fn choice(&mut self) -> usize {
        let cache = &self.lent.cache;
        match self.random.below(6) {
            0 | 1 if cache.awaited.is_some() => REPLY,
            2 if cache.any_unsure() => CLKC,
            3 if cache.awaited.is_some() && !cache.any_held() => {
                self.random.pick(&[WRITE, WRITE, ERASURE])
            }
            4 if self.lent.table.listed().is_none() => MAKE_TABLE,
            _ => self.random.weighted(&self.mood),
        }
    }

    fn call(&mut self) -> Call {
        let choice = self.choice();
        let (random, drive) = (&mut self.random, &self.lent.drive);
        match choice {
            0 => {
                let there = drive.map().map_or(0, |map| map.entries().len());
                Call::Partition(mostly_below(random, there))
            }
            1 => Call::States,
            2 => Call::Why,
            3 => Call::Place(mostly_below(random, PLACES)),
            4 => Call::WriteMap(Text::any(random).bytes),
            5 => Call::Direct(Read { cell: commands::cell(random, drive) }),
            WRITE => Call::Direct(commands::write(random, drive)),
            7 => Call::Direct(Zeroize { cell: commands::cell(random, drive) }),
            chosen @ (ERASURE | 9) => {
                let partition = commands::partition(random, drive);
                let cut = (chosen == 9).then(|| commands::cut_of(random, drive, partition));
                Call::Erase(Erase { partition, cut })
            }
            10 => Call::Restart,
            REPLY => Call::EngineReply(reply(random)),
            MAKE_TABLE => tables::making(random, &self.numbers),
            mailbox => {
                let partition = commands::partition(random, drive);
                let command = Mail::ALL[mailbox - CLKC];
                let cached = self.lent.cache.tags();
                let unloads = command == Mail::Kunl && random.one_in(2) && !cached.is_empty();
                let tags = if unloads { &cached } else { &self.tags };
                let handle = tables::handle(random, &self.lent.table, &self.numbers);
                Call::Mailbox(requests::generated(random, command, tags, partition, handle))
            }
        }
    }

    /// What a call is lent. The mailbox alone has a block and a response buffer,
    /// the states alone have arrays, and a map that is written has its buffer; all hold
    /// anything, so that whatever is written, or should not have been, shows.
    fn lent(&mut self, call: &Call) -> Lent {
        let (block, response, output) = (vec![], vec![], vec![]);
        let mut lent = Lent { block, response, output, ..self.lent.clone() };
        match call {
            Call::Mailbox(_) => (lent.block, lent.response) = requests::buffers(&mut self.random),
            Call::States => {
                let mut array = || [(); PARTITIONS].map(|()| self.random.cell());
                (lent.states, lent.short_pairs) = (array(), array());
            }
            Call::WriteMap(text) => {
                let room = texts::room(&mut self.random, text).1;
                lent.output = self.random.bytes(room);
            }
            _ => {}
        }
        lent
    }
}

/// A number below the count, or one in three around it or past it.
fn mostly_below(random: &mut Random, count: usize) -> u32 {
    if random.one_in(3) {
        random.around(count)
    } else {
        random.below(count.max(1)) as u32
    }
}

/// Tags that are easily taken for one another, an empty place's 0 among them.
fn tags(random: &mut Random) -> Vec<u64> {
    let one = random.bits();
    let (low, high) = (one & 0xFFFF_FFFF, one >> 32 << 32);
    let mut tags = vec![0, 1, u64::MAX, one, one.swap_bytes(), one.rotate_left(32), low, high];
    tags.resize_with(TAGS, || random.bits());
    tags
}

/// Mostly done, so that keys are held.
fn reply(random: &mut Random) -> EngineReply {
    let any = random.cell();
    let failed = random.pick(&[0, 1, 2, 3, 4, u32::MAX, any]);
    random.pick(&[Done, Done, Done, Done, TimedOut, Failed(failed)])
}

/// Empty half of the time; otherwise full, nearly full, or any.
fn cache(random: &mut Random, tags: &[u64]) -> Cache {
    let (mut cache, way) = (Cache::default(), random.below(8));
    if way >= 6 {
        return any_cache(random, tags);
    }
    if way >= 4 {
        cache.places.iter_mut().zip(tags).for_each(|(place, tag)| *place = Held(*tag));
        cache.places.rotate_left(random.below(PLACES));
    }
    if way == 5 {
        cache.places[random.below(PLACES)] = Empty;
    }
    cache
}

/// Any two kinds of places, some or none of them empty, with any tags, perhaps twice, and any reply
/// awaited or none: much of this no call leaves.
fn any_cache(random: &mut Random, tags: &[u64]) -> Cache {
    let tags = if random.one_in(2) { tags } else { &tags[..6] };
    let kinds: [fn(u64) -> Place; 3] = [Held, Waiting, Unsure];
    let [one, other] = [random.pick(&kinds), random.pick(&kinds)];
    let third = if random.one_in(4) { one } else { |_| Empty };
    let place = |_| random.pick(&[one, other, third])(random.pick(tags));
    let places = [(); PLACES].map(place);
    let awaited = if random.one_in(2) { random.pick(&REPLIES) } else { None };
    Cache { places, awaited }
}

/// Most drives are small. A few are large, have any number of partitions of any
/// length, or have a bad map or wrong lengths.
fn drive(random: &mut Random) -> Drive {
    let way = random.below(50);
    let image = match way {
        0 => maps::largest(random),
        3..=6 => maps::compact(random),
        7 => maps::longest(random),
        8 | 9 => maps::good(random),
        _ => maps::small(random),
    };
    let bytes = if way == 1 { maps::damaged(random, image) } else { image.bytes() };
    let mut drive = drives::to_burn(random, bytes);
    if way == 2 {
        drives::damage_lengths(random, &mut drive);
    }
    drive
}

/// Damages one thing that is lent.
fn damage(random: &mut Random, lent: &mut Lent) {
    match random.below(6) {
        0 => maps::damage_bytes(random, &mut lent.drive.image),
        1 | 2 => requests::damage_buffers(random, &mut lent.block, &mut lent.response),
        3 => tables::damage(random, &mut lent.table),
        4 => maps::turn_guide(random, &mut lent.drive.image),
        _ => drives::damage_lengths(random, &mut lent.drive),
    }
}
