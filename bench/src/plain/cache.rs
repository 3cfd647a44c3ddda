//! Document 01, the key cache; document 02, P5: places that wait for the engine's reply.

use super::fuses::active_slot;
use super::map::Map;
use super::Refusal;
use model::{Awaited, Cache, EngineReply, Place, State};

/// Takes the engine's reply to the open order: refusal 19.
#[inline(never)]
pub fn engine_reply(cache: &mut Cache, reply: EngineReply) -> Result<(), Refusal> {
    let order = cache.awaited.take().ok_or(19_u32)?;
    for place in &mut cache.places {
        if let Place::Waiting(tag) = *place {
            *place = match (reply, order) {
                (EngineReply::Done, Awaited::Load) => Place::Held(tag),
                (EngineReply::Done, Awaited::Unload | Awaited::Clear) => Place::Empty,
                _ => Place::Unsure(tag),
            };
        }
    }
    Ok(())
}

/// Whether a slot is in use: waiting and unsure places count as held.
pub fn any_held(cache: &Cache) -> bool {
    cache.places.iter().any(|place| *place != Place::Empty)
}

/// Puts a tag into the lowest empty place, which waits: refusals 11, 12, 13, 17 and 18.
pub fn load(map: &Map, cells: &[u32], cache: &mut Cache, tag: u64) -> Result<u32, Refusal> {
    if !matches!(active_slot(map, cells), Some((_, State::Programmed))) {
        return Err(11);
    }
    if place_with(cache, tag).is_some() {
        return Err(12);
    }
    let empty = cache.places.iter().position(|place| *place == Place::Empty).ok_or(13_u32)?;
    judge_order(cache)?;
    Ok(give(cache, empty, tag, Awaited::Load))
}

/// Has the lowest place with a tag wait: refusals 14, 17 and 18.
pub fn unload(cache: &mut Cache, tag: u64) -> Result<u32, Refusal> {
    let found = place_with(cache, tag).ok_or(14_u32)?;
    judge_order(cache)?;
    Ok(give(cache, found, tag, Awaited::Unload))
}

/// Has every place wait that is not empty: refusal 17.
pub fn clear(cache: &mut Cache) -> Result<(), Refusal> {
    judge_idle(cache)?;
    for place in &mut cache.places {
        if let Some(tag) = tag_of(*place) {
            *place = Place::Waiting(tag);
        }
    }
    cache.awaited = Some(Awaited::Clear);
    Ok(())
}

/// Refusal 17.
pub fn judge_idle(cache: &Cache) -> Result<(), Refusal> {
    let waits = |place: &Place| matches!(place, Place::Waiting(_));
    if cache.awaited.is_some() || cache.places.iter().any(waits) {
        return Err(17);
    }
    Ok(())
}

/// Refusals 17 and 18.
fn judge_order(cache: &Cache) -> Result<(), Refusal> {
    judge_idle(cache)?;
    if cache.places.iter().any(|place| matches!(place, Place::Unsure(_))) {
        return Err(18);
    }
    Ok(())
}

fn give(cache: &mut Cache, place: usize, tag: u64, order: Awaited) -> u32 {
    cache.places[place] = Place::Waiting(tag);
    cache.awaited = Some(order);
    place as u32
}

fn place_with(cache: &Cache, tag: u64) -> Option<usize> {
    cache.places.iter().position(|place| tag_of(*place) == Some(tag))
}

fn tag_of(place: Place) -> Option<u64> {
    match place {
        Place::Empty => None,
        Place::Waiting(tag) | Place::Held(tag) | Place::Unsure(tag) => Some(tag),
    }
}
