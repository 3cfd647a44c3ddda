//! Faults of document 02's P6.

use super::made::{Fault, Made};
use crate::tally::Row;
use model::mailbox::{sum, LEAST_RESPONSE};
use model::{Cache, Call, Handle, KeyBlock, Lent, Model, Order, Reply, Said, Table, HANDLES};

/// The greatest number that a handle has.
const MOST: u64 = u32::MAX as u64;

pub(super) const ALL: [Row<Fault>; 20] = [
    ("a new number from the place's own handle", |m| {
        m.carries_out("RHPK") && m.gives(m.place(), m.named().wrapping_add(1))
    }),
    ("a number given at 2^32 - 1 by wrapping", |m| {
        m.refused(21) && m.before.table.greatest == MOST && m.gives(m.place(), 0)
    }),
    ("a greatest in 32 bits", |m| {
        let greatest = m.before.table.greatest;
        m.refused(21) && greatest > MOST && m.gives(m.place(), (greatest as u32).wrapping_add(1))
    }),
    ("the last place with the handle", |m| {
        m.carries_out("RHPK") && m.gives(m.last_place(), m.after.table.greatest as u32)
    }),
    ("the algorithm lost", |m| {
        m.carries_out("RHPK") && m.leaves(|m| m.after.table.handles[m.place()].algorithm = 0)
    }),
    ("the greatest not raised", |m| {
        m.carries_out("RHPK") && m.leaves(|m| m.after.table.greatest = m.before.table.greatest)
    }),
    ("the old handle answered", |m| m.carries_out("RHPK") && m.answers(m.named())),
    ("a handle past the count found", |m| m.refused(20) && m.counting_handles(|_| HANDLES as u64)),
    ("21 before 20", |m| m.refused(20) && m.applies(21) && m.refuse(21)),
    ("20 before 17", |m| m.refused(17) && m.applies(20) && m.refuse(20)),
    ("18 given to RHPK", |m| m.carries_out("RHPK") && m.before.cache.any_unsure() && m.refuse(18)),
    ("no 17 for EHDL", |m| m.is("EHDL") && m.refused(17) && m.seeing(|c| *c = Cache::default())),
    ("handle and algorithm exchanged", |m| {
        m.carries_out("EHDL") && m.leaves(|m| m.after.response[16..24].rotate_left(4))
    }),
    ("a response buffer of 36 bytes accepted", |m| m.refused(2) && m.with_room_from(36)),
    ("a count in 32 bits", |m| m.refused(2) && m.counting_handles(|count| count & MOST)),
    ("a count asked of EHDL and RHPK alone", |m| {
        m.refused(2) && !m.is("EHDL") && !m.is("RHPK") && m.counting_handles(|_| 1)
    }),
    ("the table emptied by a restart", |m| {
        m.is("restart") && m.leaves(|m| m.after.table = Table::default())
    }),
    ("a table made over a table", |m| m.makes(|there, distinct| there > 0 && distinct)),
    ("a table made with a handle twice", |m| m.makes(|there, distinct| there == 0 && !distinct)),
    ("a table's greatest from its last handle", |m| {
        m.carries_out("make table")
            && m.leaves(|Made { after: Lent { table, .. }, .. }| {
                table.greatest = table.handles[table.count as usize - 1].number.into();
            })
    }),
];

/// What RHPK names, where it was carried out or refused with 21.
impl Made<'_> {
    fn named(&self) -> u32 {
        match self.call {
            Call::Mailbox(request) => request.handle().expect("it has one"),
            _ => panic!("no request"),
        }
    }

    fn place(&self) -> usize {
        self.before.table.lowest_with(self.named()).expect("it is there")
    }

    fn last_place(&self) -> usize {
        let mut listed = self.before.table.listed().unwrap_or(&[]).iter();
        listed.rposition(|handle| handle.number == self.named()).expect("it is there")
    }
}

/// What a fault changes.
impl Made<'_> {
    /// RHPK gives this number at this place.
    fn gives(&mut self, place: usize, number: u32) -> bool {
        self.after.clone_from(self.before);
        self.after.table.handles[place].number = number;
        self.after.table.greatest = number.into();
        self.said = Said::Reply(Reply::Accepted { length: 16, order: Order::None });
        self.answers(number)
    }

    /// RHPK answers this number.
    fn answers(&mut self, number: u32) -> bool {
        let response = &mut self.after.response[..16];
        response[4..12].fill(0);
        response[12..].copy_from_slice(&number.to_le_bytes());
        let chksum = sum::response_chksum(response);
        sum::put_chksum(response, chksum);
        true
    }

    /// A mailbox command finds another count than there is.
    fn counting_handles(&mut self, count: fn(u64) -> u64) -> bool {
        if !matches!(self.call, Call::Mailbox(_)) {
            return false;
        }
        self.after.clone_from(self.before);
        self.after.table.count = count(self.before.table.count);
        self.said = Model.answer(self.after, self.call);
        self.after.table.count = self.before.table.count;
        true
    }

    /// A mailbox command takes a response buffer of so many bytes for one that is long enough.
    fn with_room_from(&mut self, least: usize) -> bool {
        let length = self.before.response.len();
        if !(least..LEAST_RESPONSE).contains(&length) {
            return false;
        }
        self.after.response.resize(LEAST_RESPONSE, 0);
        self.said = Model.answer(self.after, self.call);
        self.after.response.truncate(length);
        true
    }

    /// A table is made where this holds of the count that is there, and of whether the handles are
    /// distinct.
    fn makes(&mut self, holds: fn(u64, bool) -> bool) -> bool {
        let (handles, algorithms) = match self.call {
            Call::MakeTable { handles, algorithms } => (handles, algorithms),
            _ => return false,
        };
        let (count, distinct) = (handles.len(), Table::fresh(handles, algorithms).is_some());
        let fits = count == algorithms.len() && (1..=HANDLES).contains(&count);
        if !fits || !holds(self.before.table.count, distinct) {
            return false;
        }
        let greatest = handles.iter().copied().max().unwrap_or(0).into();
        self.after.table = Table { count: count as u64, greatest, ..Table::default() };
        for (i, (number, algorithm)) in handles.iter().zip(algorithms).enumerate() {
            self.after.table.handles[i] = Handle { number: *number, algorithm: *algorithm };
        }
        self.said = Said::Made(Ok(()));
        true
    }
}
