//! Faults of document 02's P5.

use super::made::{Fault, Made};
use crate::tally::Row;
use model::Awaited::{self, Clear, Load, Unload};
use model::EngineReply::{self, Done, Failed, TimedOut};
use model::Place::{self, Empty, Held, Unsure};
use model::{Cache, Call, Erasure, KeyBlock, Model, Order, Reply, Said};

pub(super) const ALL: [Row<Fault>; 35] = [
    ("a load's place held before done", |m| m.orders(Load) && m.waiting(Held)),
    ("an unload's place empty before done", |m| m.orders(Unload) && m.waiting(|_| Empty)),
    ("a clear that empties at once", |m| m.orders(Clear) && m.waiting(|_| Empty)),
    ("a clear that passes over unsure places", |m| m.orders(Clear) && m.keep(0, Place::is_unsure)),
    ("a load that awaits no reply", |m| m.orders(Load) && m.awaits(None)),
    ("a clear of an empty cache that awaits no reply", |m| {
        m.orders(Clear) && !m.before.cache.any_held() && m.awaits(None)
    }),
    ("done to an unload that holds", |m| m.replies(Done, Unload) && m.waiting(Held)),
    ("a load out of time taken for none", |m| m.replies(TimedOut, Load) && m.waiting(|_| Empty)),
    ("an unload out of time that holds", |m| m.replies(TimedOut, Unload) && m.waiting(Held)),
    ("a clear out of time taken for done", |m| m.replies(TimedOut, Clear) && m.waiting(|_| Empty)),
    ("a failure of number 0 taken for done", |m| m.replies(Failed(0), Load) && m.waiting(Held)),
    ("a reply for the lowest place alone", |m| m.takes() && m.keep(1, Place::is_waiting)),
    ("a reply that makes held places unsure", |m| m.takes() && m.turn(Place::is_held, Unsure)),
    ("a reply taken twice", |m| m.takes() && m.awaits(m.before.cache.awaited)),
    ("a reply taken where none is awaited", |m| {
        m.refused(19) && m.seeing(|cache| cache.awaited = Some(Load))
    }),
    ("a reply taken where a place waits, though none is awaited", |m| {
        m.refused(19) && m.seeing(|cache| cache.awaited = cache.waits().then_some(Load))
    }),
    ("a waiting place told as held", |m| match &mut m.said {
        Said::Place([kind @ 2, _]) => {
            *kind = 1;
            true
        }
        _ => false,
    }),
    ("an unsure place counted as empty", |m| m.counting(Place::is_unsure, |_| Empty)),
    ("a waiting place counted as empty", |m| m.counting(Place::is_waiting, |_| Empty)),
    ("an unsure place counted as held", |m| m.counting(Place::is_unsure, Held)),
    ("17 by a waiting place alone", |m| m.refused(17) && m.seeing(|cache| cache.awaited = None)),
    ("17 by an awaited reply alone", |m| m.refused(17) && m.counting(Place::is_waiting, Held)),
    ("17 given to FSTA", |m| m.carries_out("FSTA") && m.before.cache.waits() && m.refuse(17)),
    ("17 given to the library's erasure", |m| m.ends() && m.before.cache.waits() && m.refuse(17)),
    ("no 17 for FERS", |m| m.is("FERS") && m.refused(17) && m.seeing(|c| *c = Cache::default())),
    ("17 before 14", |m| m.refused(14) && m.applies(17) && m.refuse(17)),
    ("18 before 17", |m| m.refused(17) && m.applies(18) && m.refuse(18)),
    ("15 before 17", |m| m.refused(17) && m.applies(15) && m.refuse(15)),
    ("18 given to CLKC", |m| m.carries_out("CLKC") && m.before.cache.any_unsure() && m.refuse(18)),
    ("18 given to FERS", |m| m.carries_out("FERS") && m.before.cache.any_unsure() && m.refuse(18)),
    ("10 for an awaited reply with every place empty", |m| {
        let on_fuses = matches!(m.call, Call::Direct(_) | Call::Erase(_));
        let empty = m.before.cache.awaited.is_some() && !m.before.cache.any_held();
        on_fuses && empty && m.seeing(|cache| cache.places[0] = Held(0))
    }),
    ("14 for an unsure tag", |m| m.is("KUNL") && m.refused(18) && m.refuse(14)),
    ("a cut that keeps the awaited reply", |m| {
        m.is("cut erasure") && m.awaits(m.before.cache.awaited)
    }),
    ("a cut past the end that drops it", |m| m.is("cut erasure") && m.ends() && m.awaits(None)),
    ("a restart that keeps it", |m| m.is("restart") && m.awaits(m.before.cache.awaited)),
];

/// When a fault shows.
impl Made<'_> {
    /// Whether this order was given.
    fn orders(&self, order: Awaited) -> bool {
        let given = match self.said {
            Said::Reply(Reply::Accepted { order, .. }) => order != Order::None,
            _ => false,
        };
        given && self.after.cache.awaited == Some(order)
    }

    /// Whether a reply was taken.
    fn takes(&self) -> bool {
        self.said == Said::Taken(Ok(()))
    }

    /// Whether this reply to this order was.
    fn replies(&self, reply: EngineReply, order: Awaited) -> bool {
        let handed = matches!(self.call, Call::EngineReply(handed) if *handed == reply);
        self.takes() && handed && self.before.cache.awaited == Some(order)
    }

    /// Whether an erasure by the library's call ran to its end.
    fn ends(&self) -> bool {
        matches!(self.said, Said::Erasure(Erasure::Erased { .. }))
    }
}

/// What a fault changes.
impl Made<'_> {
    fn awaits(&mut self, awaited: Option<Awaited>) -> bool {
        self.after.cache.awaited = awaited;
        true
    }

    /// Each place with what it was.
    fn places(&mut self) -> impl Iterator<Item = (&mut Place, Place)> {
        self.after.cache.places.iter_mut().zip(self.before.cache.places)
    }

    /// Places that are of this kind, or were, turn into others.
    fn turn(&mut self, kind: fn(&Place) -> bool, others: fn(u64) -> Place) -> bool {
        for (now, was) in self.places() {
            let place = [*now, was].into_iter().find(kind);
            place.and_then(Place::tag).into_iter().for_each(|tag| *now = others(tag));
        }
        true
    }

    /// What waits, or waited for the reply, turns into others.
    fn waiting(&mut self, others: fn(u64) -> Place) -> bool {
        self.turn(Place::is_waiting, others)
    }

    /// Places of this kind, but for so many of the lowest, stay as they were.
    fn keep(&mut self, but: usize, kind: fn(&Place) -> bool) -> bool {
        let kept = self.places().filter(|(_, was)| kind(was)).skip(but);
        kept.for_each(|(now, was)| *now = was);
        true
    }

    /// The call is made on another cache than it is. What it leaves alone is what it was.
    pub(super) fn seeing(&mut self, change: impl Fn(&mut Cache)) -> bool {
        let mut seen = self.before.clone();
        change(&mut seen.cache);
        self.after.clone_from(&seen);
        self.said = Model.answer(self.after, self.call);
        let (left, was) = (&mut self.after.cache, &self.before.cache);
        for (i, place) in left.places.iter_mut().enumerate() {
            if *place == seen.cache.places[i] {
                *place = was.places[i];
            }
        }
        if left.awaited == seen.cache.awaited {
            left.awaited = was.awaited;
        }
        true
    }

    /// The call, if it does not only tell a place, is made on a cache whose places of this kind are
    /// others.
    fn counting(&mut self, kind: fn(&Place) -> bool, others: fn(u64) -> Place) -> bool {
        let see = |cache: &mut Cache| {
            for place in cache.places.iter_mut().filter(|place| kind(place)) {
                *place = place.tag().map_or(Empty, others);
            }
        };
        !self.is("place") && self.seeing(see)
    }
}
