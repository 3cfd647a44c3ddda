//! Calls of a key block compared with the model's: any two sides of one call, and generated calls
//! in sequences on one drive.

mod charge;
pub mod commands;
mod handles;
mod met;
mod outcomes;
mod pairs;
pub mod requests;
mod scene;
mod sights;
pub mod tables;

pub use met::{answered, answers, possible};
pub use outcomes::{came, outcomes};

use crate::context::table_words;
use crate::tally::Tally;
use met::Seen;
use model::{Call, KeyBlock, Lent, Model, Said};
pub use scene::Scene;
use std::fmt::Debug;

/// Plays a sequence on a key block and counts what is met in each call, or gives the first
/// difference from the model, with the sequence's number, which makes it again, and the call's.
pub fn sequence(number: usize, block: &mut impl KeyBlock, tally: &mut Tally) -> Result<(), String> {
    let mut scene = Scene::on(number, |_, _| ());
    for step in 0..scene.calls {
        let (call, before) = scene.next_call();
        let (mut expected, mut found) = (before.clone(), before.clone());
        let said = Model.answer(&mut expected, &call);
        let answered = block.answer(&mut found, &call);
        if let Some(what) = difference((said, &expected), (answered, &found)) {
            return Err(format!("sequence {number}, call {step}: {call}\n{what}"));
        }
        tally.add(Seen::of(&call, &before, said, &expected).met());
        scene.go_on(expected);
    }
    Ok(())
}

/// What a side answered and left.
pub type Side<'a> = (Said, &'a Lent);

/// The first thing in which a call that was made on this is not the model's.
pub fn unlike_model(before: &Lent, call: &Call, block: Side) -> Option<String> {
    let mut expected = before.clone();
    let said = Model.answer(&mut expected, call);
    difference((said, &expected), block)
}

/// The first thing in which what a key block answers or leaves is not the model's:
/// the answer, the cells, the places of the cache, the awaited reply, the table, the block, the
/// response buffer, the two arrays of the states, the buffer for a map, or anything else that is
/// lent.
pub fn difference((said, expected): Side, (answered, found): Side) -> Option<String> {
    if said == answered && expected == found {
        return None;
    }
    let answers = || format!("the answer: the model says {said:?}, the key block {answered:?}");
    let awaited = || match [expected, found].map(|lent| lent.cache.awaited) {
        [model, block] if model == block => None,
        [model, block] => {
            Some(format!("the awaited reply: the model has {model:?}, the key block has {block:?}"))
        }
    };
    let tables = || [expected, found].map(|lent| table_words(&lent.table));
    let others = || format!("the model leaves {expected:X?}, the key block leaves {found:X?}");
    let first = (said != answered)
        .then(answers)
        .or_else(|| first("cell", &expected.drive.cells, &found.drive.cells))
        .or_else(|| first("place", &expected.cache.places, &found.cache.places))
        .or_else(awaited)
        .or_else(|| first("table word", &tables()[0], &tables()[1]))
        .or_else(|| first("block byte", &expected.block, &found.block))
        .or_else(|| first("response byte", &expected.response, &found.response))
        .or_else(|| first("state", &expected.states, &found.states))
        .or_else(|| first("short pairs", &expected.short_pairs, &found.short_pairs))
        .or_else(|| first("output byte", &expected.output, &found.output));
    Some(first.unwrap_or_else(others))
}

/// Both were lent the same, so the lengths are the same.
fn first<T: PartialEq + Debug>(name: &str, model: &[T], block: &[T]) -> Option<String> {
    let (at, (expected, found)) =
        model.iter().zip(block).enumerate().find(|(_, (expected, found))| expected != found)?;
    Some(format!("{name} {at}: the model has {expected:X?}, the key block has {found:X?}"))
}
