//! Sights of document 02's P6: tables that are made, listed and rotated, fresh and damaged ones.

use super::met::Seen;
use super::sights::Sight;
use crate::tally::Row;
use model::mailbox::block::BLOCK_BYTES;
use model::mailbox::LEAST_RESPONSE;
use model::{Call, Handle, Place, Table, HANDLES};

/// The greatest number that a handle has.
const MOST: u64 = u32::MAX as u64;

pub const ALL: &[Row<Sight>] = &[
    ("a table of 1 handle made", |s| s.makes(|handles| handles.len() == 1)),
    ("a table of 2 handles made", |s| s.makes(|handles| handles.len() == 2)),
    ("a table of 3 handles made", |s| s.makes(|handles| handles.len() == 3)),
    ("a table made, its largest handle before others", |s| {
        s.makes(|handles| handles.last() != handles.iter().max())
    }),
    ("no table made over one that is there, for that alone", |s| {
        s.makes_none(|table, _, _| table.listed().is_some())
    }),
    ("no table made over one with a damaged count, for that alone", |s| {
        s.makes_none(|table, _, _| table.count > HANDLES as u64)
    }),
    ("no table made of no handle, for that alone", |s| {
        s.makes_none(|_, handles, algorithms| handles.is_empty() && algorithms.is_empty())
    }),
    ("no table made of more than three handles, for that alone", |s| {
        s.makes_none(|_, handles, _| handles.len() > HANDLES)
    }),
    ("no table made with too few algorithms, for that alone", |s| {
        s.makes_none(|_, handles, algorithms| handles.len() > algorithms.len())
    }),
    ("no table made with too many algorithms, for that alone", |s| {
        s.makes_none(|_, handles, algorithms| handles.len() < algorithms.len())
    }),
    ("no table made with a handle twice, for that alone", |s| {
        s.makes_none(|_, handles, _| twice(handles))
    }),
    ("2 for a count of 0 alone", |s| s.no_table(|count| count == 0)),
    ("2 for a count of 4 alone", |s| s.no_table(|count| count == 4)),
    ("2 for a count of 2^64 - 1 alone", |s| s.no_table(|count| count == u64::MAX)),
    ("2 for a count of 2^32 + 1 alone", |s| s.no_table(|count| count == MOST + 2)),
    ("2 for a response buffer of 36 to 39 bytes alone", |s| {
        s.refused(2) && s.table_is_there() && s.response_alone_is_short()
    }),
    ("EHDL of 1 handle", |s| s.lists_handles(|table| table.count == 1)),
    ("EHDL of 2 handles", |s| s.lists_handles(|table| table.count == 2)),
    ("EHDL of 3 handles", |s| s.lists_handles(|table| table.count == 3)),
    ("EHDL of a handle twice", |s| s.lists_handles(|table| twice(&listed(table)))),
    ("EHDL with the numbers used up", |s| s.lists_handles(|table| table.greatest >= MOST)),
    ("EHDL beside an unsure place", |s| s.came == "EHDL none" && s.any(Place::is_unsure)),
    ("RHPK in a fresh table", |s| s.rotates(|table, _, _| fresh(table))),
    ("RHPK at place 0", |s| s.rotates(|_, places, _| places[0] == 0)),
    ("RHPK at place 1", |s| s.rotates(|_, places, _| places[0] == 1)),
    ("RHPK at place 2", |s| s.rotates(|_, places, _| places[0] == 2)),
    ("RHPK at the lowest of two places", |s| s.rotates(|_, places, _| places.len() == 2)),
    ("RHPK at the lowest of three places", |s| s.rotates(|_, places, _| places.len() == 3)),
    ("RHPK with the greatest below a handle", |s| s.rotates(|table, _, _| below(table))),
    ("RHPK that gives a number which the table has already", |s| {
        s.rotates(|table, _, new| listed(table).contains(&new))
    }),
    ("RHPK that gives the last number", |s| s.rotates(|_, _, new| u64::from(new) == MOST)),
    ("RHPK beside an unsure place", |s| s.came == "RHPK none" && s.any(Place::is_unsure)),
    ("20 for a handle past the count", |s| s.refused(20) && s.its_handle_is_past()),
    ("21 at 2^32 - 1", |s| s.refused(21) && s.before.table.greatest == MOST),
    ("21 above it", |s| s.refused(21) && s.before.table.greatest > MOST),
    ("21 in a fresh table", |s| s.refused(21) && fresh(&s.before.table)),
];

fn numbers(handles: &[Handle]) -> Vec<u32> {
    handles.iter().map(|handle| handle.number).collect()
}

/// The handles that count.
fn listed(table: &Table) -> Vec<u32> {
    numbers(table.listed().unwrap_or(&[]))
}

fn twice(numbers: &[u32]) -> bool {
    numbers.iter().any(|number| numbers.iter().filter(|other| *other == number).count() > 1)
}

fn below(table: &Table) -> bool {
    listed(table).iter().any(|number| u64::from(*number) > table.greatest)
}

/// Distinct handles, and their largest as the greatest: as it was made, or with what was given
/// since.
fn fresh(table: &Table) -> bool {
    let numbers = listed(table);
    !twice(&numbers) && numbers.into_iter().max().map(u64::from) == Some(table.greatest)
}

impl Seen<'_> {
    /// Whether a table was made of handles of which this holds.
    fn makes(&self, holds: fn(&[u32]) -> bool) -> bool {
        match self.call {
            Call::MakeTable { handles, .. } => self.said.refusal().is_none() && holds(handles),
            _ => false,
        }
    }

    /// Whether none was made where this holds, and nothing else is wrong.
    fn makes_none(&self, holds: fn(&Table, &[u32], &[u32]) -> bool) -> bool {
        let table = &self.before.table;
        match self.call {
            Call::MakeTable { handles, algorithms } => {
                let wrong = [
                    table.count != 0,
                    handles.is_empty(),
                    handles.len() > HANDLES,
                    handles.len() != algorithms.len(),
                    twice(handles),
                ];
                let alone = wrong.into_iter().filter(|wrong| *wrong).count() == 1;
                self.refused(2) && alone && holds(table, handles, algorithms)
            }
            _ => false,
        }
    }

    fn table_is_there(&self) -> bool {
        self.before.table.listed().is_some()
    }

    /// Whether a mailbox command found cells, marks and block of right lengths.
    fn mail_with_lengths(&self) -> bool {
        let right = !self.before.drive.lengths_are_wrong();
        matches!(self.call, Call::Mailbox(_)) && right && self.before.block.len() == BLOCK_BYTES
    }

    fn response_alone_is_short(&self) -> bool {
        let length = self.before.response.len();
        self.mail_with_lengths() && (36..LEAST_RESPONSE).contains(&length)
    }

    /// Whether a mailbox command was refused for its table's count, of which this holds, alone.
    fn no_table(&self, holds: fn(u64) -> bool) -> bool {
        let right = self.mail_with_lengths() && self.before.response.len() >= LEAST_RESPONSE;
        self.refused(2) && right && holds(self.before.table.count)
    }

    fn lists_handles(&self, holds: fn(&Table) -> bool) -> bool {
        self.came == "EHDL none" && holds(&self.before.table)
    }

    /// The handle that a request names.
    fn its_handle(&self) -> Option<u32> {
        match self.call {
            Call::Mailbox(request) => request.handle(),
            _ => None,
        }
    }

    /// Whether a handle was rotated where this holds of the table as it was, of the places with the
    /// handle, and of the new number.
    fn rotates(&self, holds: fn(&Table, &[usize], u32) -> bool) -> bool {
        let table = &self.before.table;
        self.its_handle().filter(|_| self.came == "RHPK none").map_or(false, |number| {
            let with_it = (0..).zip(listed(table)).filter(|(_, handle)| *handle == number);
            let places: Vec<usize> = with_it.map(|(place, _)| place).collect();
            holds(table, &places, self.after.table.greatest as u32)
        })
    }

    fn its_handle_is_past(&self) -> bool {
        let table = &self.before.table;
        let past = |number| numbers(&table.handles[table.count as usize..]).contains(&number);
        self.its_handle().map_or(false, past)
    }
}
