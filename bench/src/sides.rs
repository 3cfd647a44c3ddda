//! The sides that are compared: the library, the plain Rust and the model; and that all of them do
//! the same work on an input, before it is measured.

mod by_plain;

pub use by_plain::Plain;

use crate::rows::Row;
use checks::calls::difference;
use checks::{context, proved};
use model::{Call, KeyBlock, Lent, Model, Said};
use sciambrunola::Context;

/// A key block with what it is lent.
pub trait Side {
    /// Makes a call.
    fn answer(&mut self, call: &Call) -> Said;
    /// Makes the cache, with the awaited reply, and the table what they were at the start.
    fn put_back(&mut self);
    /// What the calls have left.
    fn left(&self) -> Lent;
}

/// The place of the library among the sides.
pub const LIBRARY: usize = 0;
/// That of the plain Rust.
pub const PLAIN: usize = 1;
/// That of the model.
pub const MODEL: usize = 2;

/// The sides, each at the start of a row.
pub fn of(row: &Row) -> [Box<dyn Side>; 3] {
    let lent = || row.start.clone();
    let context = context::of(&row.start);
    [
        Box::new(Library { lent: lent(), start: context.clone(), context }),
        Box::new(Keeping { block: Plain, lent: lent(), start: lent() }),
        Box::new(Keeping { block: Model, lent: lent(), start: lent() }),
    ]
}

/// Makes the call of a row twice on every side. Fails unless all of them answer the same and leave
/// the same each time, and carry the call out; and unless the second call leaves what the first one
/// left, but for the response, since what is burned again sets no new fuse.
pub fn check_equal(row: &Row) {
    let [library, plain, model] = of(row).map(|mut side| twice(row, side.as_mut()));
    for (name, side) in [("library", library), ("plain", plain)] {
        for ((said, left), (answered, found)) in model.iter().zip(side) {
            let found = difference((*said, left), (answered, &found));
            assert_eq!(found, None, "{}: {name} and the model", row.name);
        }
    }
    let [(said, first), (again, second)] = model;
    assert_eq!([said, again].map(Said::refusal), [None; 2], "{}: the call is refused", row.name);
    let second = Lent { response: first.response.clone(), ..second };
    assert_eq!(first, second, "{}: the second call leaves something else", row.name);
}

/// What a side answers and leaves, the first time and the second.
fn twice(row: &Row, side: &mut dyn Side) -> [(Said, Lent); 2] {
    [(); 2].map(|()| {
        if row.put_back {
            side.put_back();
        }
        (side.answer(&row.call), side.left())
    })
}

/// The proved key block, called through its safe Rust functions. What it keeps
/// between calls stays in its context, so that no conversion is timed.
struct Library {
    lent: Lent,
    context: Context,
    start: Context,
}

impl Side for Library {
    fn answer(&mut self, call: &Call) -> Said {
        proved::answer(&mut self.lent, &mut self.context, call)
    }

    fn put_back(&mut self) {
        self.context.clone_from(&self.start);
    }

    fn left(&self) -> Lent {
        let mut lent = self.lent.clone();
        context::take_back(&mut lent, &self.context);
        lent
    }
}

/// A key block that has cache and table in what is lent.
struct Keeping<B> {
    block: B,
    lent: Lent,
    start: Lent,
}

impl<B: KeyBlock> Side for Keeping<B> {
    fn answer(&mut self, call: &Call) -> Said {
        self.block.answer(&mut self.lent, call)
    }

    fn put_back(&mut self) {
        self.lent.cache.clone_from(&self.start.cache);
        self.lent.table.clone_from(&self.start.table);
    }

    fn left(&self) -> Lent {
        self.lent.clone()
    }
}
