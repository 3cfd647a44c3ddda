//! What holds after every call, each as a check of values.

use super::account::{Account, Given};
use crate::small::response;
use crate::tally::{self, Row};
use model::Place::{Held, Waiting};
use model::{Awaited, Call, Drive, EngineReply, Lent, Order, Place, Reply, Said};
use sciambrunola::{why, Reason};

/// A call as it was made.
pub struct Step<'a> {
    pub call: &'a Call,
    pub before: &'a Lent,
    pub said: Said,
    pub after: &'a Lent,
    /// The account before the call.
    pub was: &'a Account,
    /// The account after it.
    pub now: &'a Account,
}

type Clause = fn(&Step) -> bool;

/// The clauses and their names.
const ALL: &[Row<Clause>] = &[
    ("a place is not empty only while the HEK is available", |s| {
        s.places().iter().all(|place| *place == Place::Empty) || s.hek_available()
    }),
    ("a place is held only where a load of its tag named it last, answered done", |s| {
        let mut named = s.places().iter().zip(s.now.named);
        named.all(|(place, order)| match (place, order.map(|order| s.now.orders[order])) {
            (Held(held), Some(Given { order: Order::Load { .. }, tag, answer })) => {
                (tag, answer) == (Some(*held), Some(EngineReply::Done))
            }
            (Held(_), _) => false,
            _ => true,
        })
    }),
    ("a place waits only while a reply is awaited, by the order that named it last", |s| {
        let mut named = s.places().iter().zip(s.now.named);
        let awaited = s.after.cache.awaited.is_some() && s.now.open.is_some();
        named.all(|(place, order)| !matches!(place, Waiting(_)) || awaited && order == s.now.open)
    }),
    ("the reply to the open order is awaited, and no other", |s| {
        let open = s.now.open.map(|order| s.now.orders[order].order);
        s.after.cache.awaited
            == match open {
                Some(Order::Clear { .. }) => Some(Awaited::Clear),
                Some(Order::Load { .. }) => Some(Awaited::Load),
                Some(Order::Unload { .. }) => Some(Awaited::Unload),
                Some(Order::None) | None => None,
            }
    }),
    ("no order is given while one is open", |s| {
        s.was.open.is_none() || s.now.orders.len() == s.was.orders.len()
    }),
    ("a reply is refused exactly where no order is open", |s| {
        !matches!(s.call, Call::EngineReply(_))
            || s.said.refusal().is_some() == s.was.open.is_none()
    }),
    ("no tag stands in two places", |s| distinct(s.after.cache.tags())),
    ("after done to a clear every place is empty", |s| {
        let open = s.was.open.map(|order| s.was.orders[order].order);
        let done = matches!(s.call, Call::EngineReply(EngineReply::Done));
        let cleared = matches!(open, Some(Order::Clear { .. })) && done;
        !cleared || s.places().iter().all(|place| *place == Place::Empty)
    }),
    // P6: "prove that from it, while only our calls change the table, no number is given twice".
    ("the handles at the start and all that are given since are distinct", |s| {
        distinct(s.now.numbers.clone())
    }),
    ("every handle of the table was there at the start or is given since", |s| {
        let mut listed = s.after.table.listed().into_iter().flatten();
        listed.all(|handle| s.now.numbers.contains(&handle.number))
    }),
    ("EHDL tells the table as it was made, with what RHPK gave at its place", |s| match s.said {
        Said::Reply(Reply::Accepted { length, .. }) if s.call.name() == "EHDL" => {
            let count = s.now.handles.len() as u32;
            response(s.after, length)[3..] == [&[count][..], &s.now.handles.concat()].concat()
        }
        _ => true,
    }),
];

/// What holds of a whole sequence.
pub const BACK: &str = "in the end replies and CLKC lead back to an empty cache";

/// The clauses that do not hold after this call.
pub fn broken(step: &Step) -> Vec<String> {
    tally::that_hold(ALL, |clause| !clause(step))
}

/// The names of all clauses.
pub fn names() -> Vec<String> {
    tally::names(ALL).into_iter().chain([BACK.to_string()]).collect()
}

fn distinct<T: Ord>(mut numbers: Vec<T>) -> bool {
    numbers.sort_unstable();
    numbers.windows(2).all(|two| two[0] != two[1])
}

impl Step<'_> {
    fn places(&self) -> &[Place] {
        &self.after.cache.places
    }

    fn hek_available(&self) -> bool {
        let Drive { image, cells, marks } = &self.after.drive;
        why(image, cells, marks) == Reason::Available
    }
}
