//! What is to be met in generated calls: each outcome of each call, each pair of
//! refusals that can apply to one call, each reply to each order, and the sights.

use super::outcomes::{came, outcomes};
use super::{charge, handles, pairs, sights};
use crate::context::REPLIES;
use crate::layout::Layout;
use crate::tally::{self, Row};
use model::Reason::{Blank, Torn};
use model::{
    fuse, Awaited, Call, Command, Cut, EngineReply, Entry, Erase, Erasure, Lent, Order, Part,
    Place, Refusal, Reply, Said, Size, Word, LIFE_CYCLE,
};

/// Whether a WRITE of a value may not touch a word.
type Forbids = fn(&Named, u64) -> bool;

/// Each is to be met alone.
const FORBIDDEN: &[Row<Forbids>] = &[
    ("the digest", |named, _| named.word.part == Part::Digest),
    ("the indicator", |named, _| named.word.part == Part::Indicator),
    ("life cycle", |named, _| named.entry.kind == LIFE_CYCLE),
    ("a partition counted as zeroized", |named, _| named.counted),
    ("a weakly marked partition", |named, _| named.weakly_marked),
    ("over 32 bits", |named, value| named.word.size == Size::Cell && value > 0xFFFF_FFFF),
];

/// What is asked of a partition and of the cells that a call leaves.
type Holds = fn(&Layout, &[u32]) -> bool;

/// Everything that a run has to meet.
pub fn possible() -> Vec<String> {
    let mut keys = outcomes();
    keys.extend(pairs::possible());
    keys.extend(tally::names(FORBIDDEN).into_iter().map(alone).chain(tally::names(sights::ALL)));
    keys.extend(tally::names(handles::ALL).into_iter().chain(tally::names(charge::ALL)));
    keys.extend(answers());
    keys
}

/// Each order with each reply to it.
pub fn answers() -> Vec<String> {
    let replies = [EngineReply::Done, EngineReply::TimedOut, EngineReply::Failed(0)];
    let of = |awaited| replies.map(|reply| answered(awaited, reply));
    REPLIES.into_iter().flatten().flat_map(of).collect()
}

/// An order, and the engine's reply to it.
pub fn answered(awaited: Awaited, reply: EngineReply) -> String {
    let reply = match reply {
        EngineReply::Done => "done",
        EngineReply::TimedOut => "timed out",
        EngineReply::Failed(_) => "failed",
    };
    format!("{awaited:?} answered {reply}")
}

fn alone(reason: String) -> String {
    format!("WRITE refused for {reason} alone")
}

/// A call that was made, with what the sights ask of it.
pub struct Seen<'a> {
    pub call: &'a Call,
    pub before: &'a Lent,
    pub said: Said,
    pub after: &'a Lent,
    /// The call's name and what it came to.
    pub came: String,
    pub applying: Vec<Refusal>,
    /// The word that a direct command names.
    pub named: Option<Named>,
    /// The partitions, for erasures, states and reasons.
    pub partitions: Vec<Layout>,
}

/// A word, with what the fuses say of it after the call.
#[derive(Clone, Copy)]
pub struct Named {
    entry: Entry,
    pub word: Word,
    pub stands: u64,
    past_bound: i64,
    /// Whether its partition is counted as zeroized, or marked all the same.
    counted: bool,
    weakly_marked: bool,
}

impl<'a> Seen<'a> {
    pub fn of(call: &'a Call, before: &'a Lent, said: Said, after: &'a Lent) -> Seen<'a> {
        let (named, partitions) = match call {
            Call::Direct(command) => (named(*command, after), vec![]),
            Call::Erase(_) | Call::States | Call::Why => (None, Layout::all(&after.drive)),
            _ => (None, vec![]),
        };
        let came = came(call, said);
        Seen { call, before, said, after, came, applying: call.applying(before), named, partitions }
    }

    /// The keys of all that is met.
    pub fn met(self) -> Vec<String> {
        let mut met = tally::that_hold(sights::ALL, |holds| holds(&self));
        met.extend(tally::that_hold(handles::ALL, |holds| holds(&self)));
        met.extend(tally::that_hold(charge::ALL, |holds| holds(&self)));
        for (at, first) in self.applying.iter().enumerate() {
            let later = self.applying[at + 1..].iter();
            met.extend(later.map(|later| pairs::key(first.number(), later.number())));
        }
        if let (Call::EngineReply(reply), Some(awaited)) = (self.call, self.before.cache.awaited) {
            met.push(answered(awaited, *reply));
        }
        if let (Call::Direct(Command::Write { value, .. }), Some(8), Some(named)) =
            (self.call, self.said.refusal(), self.named)
        {
            let mut reasons = tally::that_hold(FORBIDDEN, |holds| holds(&named, *value));
            met.extend(reasons.pop().filter(|_| reasons.is_empty()).map(alone));
        }
        met.push(self.came);
        met
    }

    /// Whether a direct command's word is secret or not, and passes the bound by so many ones.
    pub fn word(&self, secret: bool, past_bound: i64) -> bool {
        let named = |named: Named| named.entry.secret() == secret && named.past_bound == past_bound;
        self.named.map_or(false, named)
    }

    /// Whether a direct command's word lies in a partition on the older guide.
    pub fn older(&self) -> bool {
        self.named.map_or(false, |named| named.entry.older_guide())
    }

    /// Whether a direct command's word has this size, and fuses of it are unset.
    pub fn unset(&self, size: Size) -> bool {
        let unset = |named: Named| named.word.size == size && named.stands != size.all_ones();
        self.named.map_or(false, unset)
    }

    /// Of a load: whether this holds of the places from the one it took on.
    pub fn loads(&self, holds: fn(&[Place]) -> bool) -> bool {
        match self.said {
            Said::Reply(Reply::Accepted { order: Order::Load { place, .. }, .. }) => {
                holds(&self.after.cache.places[place as usize..])
            }
            _ => false,
        }
    }

    /// Whether it was refused with this number.
    pub fn refused(&self, number: u32) -> bool {
        self.said.refusal() == Some(number)
    }

    /// Whether it is of this name and was carried out.
    pub fn carries_out(&self, name: &str) -> bool {
        self.call.name() == name && self.said.refusal().is_none()
    }

    /// Whether a reply was awaited before the call.
    pub fn awaited(&self) -> bool {
        self.before.cache.awaited.is_some()
    }

    /// Whether a direct command or an erasure of this name was carried out on a slot while the
    /// reply to a clear of an empty cache was awaited.
    pub fn in_empty_clear(&self, name: &str) -> bool {
        let slot = self.named.map_or(false, |named| named.entry.slot())
            || self.partition().map_or(false, |partition| partition.slot);
        let empty_clear =
            self.before.cache.awaited == Some(Awaited::Clear) && !self.before.cache.any_held();
        empty_clear && slot && self.carries_out(name)
    }

    /// Of how many places this held before the call.
    pub fn places(&self, holds: fn(&Place) -> bool) -> usize {
        self.before.cache.places.iter().filter(|place| holds(place)).count()
    }

    /// Whether this held of some place before the call.
    pub fn any(&self, holds: fn(&Place) -> bool) -> bool {
        self.places(holds) > 0
    }

    /// The places that had a request's tag before the call.
    pub fn with_its_tag(&self) -> Vec<Place> {
        let tag = match self.call {
            Call::Mailbox(request) => request.tag(),
            _ => None,
        };
        let places = self.before.cache.places.iter().copied();
        places.filter(|place| tag.is_some() && place.tag() == tag).collect()
    }

    /// Whether this held of the lowest of them.
    pub fn its_place(&self, holds: fn(&Place) -> bool) -> bool {
        self.with_its_tag().first().map_or(false, holds)
    }

    /// Whether an erasure has ended, and left its partition so that this holds.
    pub fn ends(&self, holds: Holds) -> bool {
        matches!(self.said, Said::Erasure(Erasure::Erased { .. })) && self.leaves(holds)
    }

    /// The same of one that was cut at its indicator.
    pub fn cuts_indicator(&self, holds: Holds) -> bool {
        matches!(self.said, Said::Erasure(Erasure::Cut { burns: 1, .. })) && self.leaves(holds)
    }

    fn leaves(&self, holds: Holds) -> bool {
        self.partition().map_or(false, |partition| holds(partition, self.cells()))
    }

    /// The partition that an erasure names.
    pub fn partition(&self) -> Option<&Layout> {
        match self.call {
            Call::Erase(erase) => self.partitions.get(erase.partition as usize),
            _ => None,
        }
    }

    fn cells(&self) -> &[u32] {
        &self.after.drive.cells
    }

    /// Whether a cut's word is one cell, and its mask has more than 32 bits.
    pub fn narrow(&self) -> bool {
        match (self.call, self.partition()) {
            (Call::Erase(Erase { cut: Some(Cut { k, mask }), .. }), Some(partition)) => {
                *mask > 0xFFFF_FFFF && partition.order()[*k as usize].len() == 1
            }
            _ => false,
        }
    }

    /// Whether some partition has this state in the list.
    pub fn lists(&self, state: u32) -> bool {
        let listed = &self.after.states[..self.partitions.len()];
        matches!(self.call, Call::States) && listed.contains(&state)
    }

    /// Whether this holds of some zeroizable partition of the list.
    pub fn lists_some(&self, holds: Holds) -> bool {
        let some = |p: &Layout| p.zeroizable && holds(p, self.cells());
        matches!(self.call, Call::States) && self.partitions.iter().any(some)
    }

    /// Whether this holds of some slot before the one that a reason names.
    pub fn passes_over(&self, holds: Holds) -> bool {
        match self.said {
            Said::Reason(Ok(Blank { partition } | Torn { partition, .. })) => {
                let mut before = self.partitions.iter().take(partition as usize);
                before.any(|p| p.slot && holds(p, self.cells()))
            }
            _ => false,
        }
    }

    /// Whether this holds of a torn slot that a reason names, of its pair's cell and ones, and of
    /// the cells.
    pub fn torn(&self, holds: fn(&Layout, (usize, u32), &[u32]) -> bool) -> bool {
        match self.said {
            Said::Reason(Ok(Torn { partition, cell, ones })) => {
                holds(&self.partitions[partition as usize], (cell as usize, ones), self.cells())
            }
            _ => false,
        }
    }
}

fn named(command: Command, after: &Lent) -> Option<Named> {
    let (map, cells) = (after.drive.map_with_cells()?, &after.drive.cells);
    let word = map.word_at(command.cell())?;
    let stands = fuse::word(cells, command.cell(), word.size);
    let past_bound = i64::from(stands.count_ones()) - map.bound() as i64;
    let entry = map.entries()[word.partition];
    let partition = Layout::of(&after.drive, word.partition as u32)?;
    let (counted, weakly_marked) = (partition.counted(cells), partition.weakly_marked(cells));
    Some(Named { entry, word, stands, past_bound, counted, weakly_marked })
}
