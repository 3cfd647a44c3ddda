//! The archive's context of what the model keeps between calls, and back: the one
//! place of the generated comparisons that knows the parts of a context.

use model::{Awaited, Handle, Lent, Place, Table, HANDLES, PLACES};
use sciambrunola::{Context, CONTEXT_WORDS};

/// The word behind the places: what reply is awaited.
pub const AWAITED: usize = 2 * PLACES;

/// The words behind that: the table.
pub const TABLE: usize = AWAITED + 1;

/// What can be awaited, by its number there.
pub const REPLIES: [Option<Awaited>; 4] =
    [None, Some(Awaited::Clear), Some(Awaited::Load), Some(Awaited::Unload)];

/// The kind of each place of the cache, then the tag of each, as C is told them; then the number
/// of the awaited reply; then the table.
pub fn words(lent: &Lent) -> [u64; CONTEXT_WORDS] {
    let mut words = [0; CONTEXT_WORDS];
    for (i, place) in lent.cache.places.iter().enumerate() {
        [words[i], words[PLACES + i]] = place.told();
    }
    let number = REPLIES.iter().position(|awaited| *awaited == lent.cache.awaited);
    words[AWAITED] = number.expect("it has a number") as u64;
    words[TABLE..].copy_from_slice(&table_words(&lent.table));
    words
}

/// The table's count, a word for each handle with the algorithm in its high half, and the greatest
/// number ever given.
pub fn table_words(table: &Table) -> [u64; HANDLES + 2] {
    let mut words = [table.count, 0, 0, 0, table.greatest];
    for (word, Handle { number, algorithm }) in words[1..].iter_mut().zip(table.handles) {
        *word = u64::from(number) | u64::from(algorithm) << 32;
    }
    words
}

/// The context of what is lent.
pub fn of(lent: &Lent) -> Context {
    Context::from_words(words(lent))
}

/// Takes back what a call left in a context, of which every word is compared.
pub fn take_back(lent: &mut Lent, context: &Context) {
    let words = context.words();
    lent.cache.places = std::array::from_fn(|i| place(context.place(i)));
    let awaited = REPLIES.get(words[AWAITED] as usize);
    lent.cache.awaited = *awaited.expect("no reply has this number");
    let half = |word: u64| Handle { number: word as u32, algorithm: (word >> 32) as u32 };
    let handles = std::array::from_fn(|i| half(words[TABLE + 1 + i]));
    lent.table = Table { count: words[TABLE], handles, greatest: words[TABLE + 1 + HANDLES] };
    assert_eq!(*context, of(lent), "the words say something else than what is taken back");
}

/// A place as the model says it.
pub fn place(told: sciambrunola::Place) -> Place {
    match told {
        sciambrunola::Place::Empty => Place::Empty,
        sciambrunola::Place::Waiting(tag) => Place::Waiting(tag),
        sciambrunola::Place::Held(tag) => Place::Held(tag),
        sciambrunola::Place::Unsure(tag) => Place::Unsure(tag),
    }
}
