//! Document 02, P6, "The handle messages": the table of transport handles, and how one is made.

use crate::lent::Lent;
use crate::refusal::{self, Refusal};

/// P6: "The table holds 1 to 3 handles".
pub const HANDLES: usize = 3;

/// P6: "handle and algorithm".
#[derive(Clone, Copy, Debug, Default, PartialEq, Eq)]
#[allow(missing_docs)]
pub struct Handle {
    pub number: u32,
    pub algorithm: u32,
}

/// P6: the table. Nothing is checked: it may be another than a fresh one and those that follow from
/// it. By default there is none.
#[derive(Clone, Debug, Default, PartialEq, Eq)]
pub struct Table {
    /// How many of the handles count; 0 where there is no table.
    pub count: u64,
    /// Room for the most of them.
    pub handles: [Handle; HANDLES],
    /// "the greatest ever given, kept with the table"
    pub greatest: u64,
}

impl Table {
    /// "A fresh table has distinct handles, and their largest as the greatest given." None of any
    /// other handles than one to three, and none where each has not its algorithm.
    pub fn fresh(numbers: &[u32], algorithms: &[u32]) -> Option<Table> {
        let twice = (1..numbers.len()).any(|at| numbers[..at].contains(&numbers[at]));
        if numbers.len() > HANDLES || numbers.len() != algorithms.len() || twice {
            return None;
        }
        let greatest = (*numbers.iter().max()?).into();
        let mut handles = [Handle::default(); HANDLES];
        for (handle, (number, algorithm)) in handles.iter_mut().zip(numbers.iter().zip(algorithms))
        {
            *handle = Handle { number: *number, algorithm: *algorithm };
        }
        Some(Table { count: numbers.len() as u64, handles, greatest })
    }

    /// The handles that count, none of "a table count outside 1 to 3".
    pub fn listed(&self) -> Option<&[Handle]> {
        let count = usize::try_from(self.count).ok().filter(|count| *count > 0)?;
        self.handles.get(..count)
    }

    /// "the lowest place with the handle", none if no handle that counts is this one.
    pub fn lowest_with(&self, number: u32) -> Option<usize> {
        self.listed()?.iter().position(|handle| handle.number == number)
    }

    /// "the new number is one above the greatest ever given", none where "numbers used up".
    pub fn next(&self) -> Option<u32> {
        u32::try_from(self.greatest).ok()?.checked_add(1)
    }

    /// "rotation replaces one at its place, keeping the algorithm". The new handle; none where it
    /// is refused.
    pub(crate) fn rotate(&mut self, number: u32) -> Option<u32> {
        let (place, new) = (self.lowest_with(number)?, self.next()?);
        self.handles[place].number = new;
        self.greatest = new.into();
        Some(new)
    }
}

/// The making of a table, which is ours: of these handles with their algorithms. Whether it is
/// made, or the number of the refusal, and everything lent as it is left.
pub fn make(before: &Lent, numbers: &[u32], algorithms: &[u32]) -> (Result<(), u32>, Lent) {
    let mut after = before.clone();
    if let Some(number) = refusal::first(&applying(before, numbers, algorithms)) {
        return (Err(number), after);
    }
    after.table = Table::fresh(numbers, algorithms).expect("it is not refused");
    (Ok(()), after)
}

/// The making is refused (2) where there is a table, a damaged one too, and where the handles make
/// no fresh one.
pub fn applying(before: &Lent, numbers: &[u32], algorithms: &[u32]) -> Vec<Refusal> {
    let none_to_make = Table::fresh(numbers, algorithms).is_none();
    refusal::that_apply([(Refusal::WrongLength, before.table.count != 0 || none_to_make)])
}
