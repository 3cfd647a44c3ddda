//! Document 02, P5, "The engine that does not answer": the engine's reply to an order.

use crate::cache::{Awaited, Place};
use crate::lent::Lent;
use crate::refusal::{self, Refusal};

/// P5: "the engine's reply: done, timed out, or failed with a vendor number (u32, not kept)".
#[derive(Clone, Copy, Debug, PartialEq, Eq)]
#[allow(missing_docs)]
pub enum EngineReply {
    Done,
    TimedOut,
    Failed(u32),
}

/// P5: whether the reply is taken, or the number of the refusal, and everything lent as it is
/// left. Afterwards no reply is awaited.
pub fn reply(before: &Lent, reply: EngineReply) -> (Result<(), u32>, Lent) {
    let mut after = before.clone();
    if let Some(number) = refusal::first(&applying(before)) {
        return (Err(number), after);
    }
    let awaited = after.cache.awaited.take();
    for place in &mut after.cache.places {
        if let Place::Waiting(tag) = *place {
            *place = match (reply, awaited) {
                // "A load's place waits, and is held only after done"
                (EngineReply::Done, Some(Awaited::Load)) => Place::Held(tag),
                // "The place of an unload, and every held or unsure place under a clear, waits
                // until the reply; done empties it"
                (EngineReply::Done, _) => Place::Empty,
                // "any other reply makes it unsure", of each of the three orders
                (EngineReply::TimedOut | EngineReply::Failed(_), _) => Place::Unsure(tag),
            };
        }
    }
    (Ok(()), after)
}

/// P5: "19 a reply when none is awaited", though a place should wait.
pub fn applying(before: &Lent) -> Vec<Refusal> {
    refusal::that_apply([(Refusal::NotAwaited, before.cache.awaited.is_none())])
}
