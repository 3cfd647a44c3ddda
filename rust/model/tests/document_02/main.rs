//! The model held to the requests of document 02, a file for each; what P4 changes stands with the
//! sections of document 01 that it changes, and with P1. Every expected value is a document's, or
//! follows from its rules.

mod charge;
mod engine;
mod guides;
mod handles;
mod map_text;
mod why;

use model::{refusal, Call, Drive, Handle, KeyBlock, Lent, Model, Table};

/// The small drive with this table. Block and response buffer hold bytes that no answer has, and
/// have the least lengths.
fn small(table: Table) -> Lent {
    let (block, response) = (vec![0xB1; 128], vec![0xA5; 40]);
    Lent { drive: Drive::small(), table, block, response, ..Lent::default() }
}

/// A table of these handles with their algorithms, and this as the greatest number ever given.
fn table(listed: &[[u32; 2]], greatest: u64) -> Table {
    let mut table = Table { count: listed.len() as u64, greatest, ..Table::default() };
    for (handle, [number, algorithm]) in table.handles.iter_mut().zip(listed) {
        *handle = Handle { number: *number, algorithm: *algorithm };
    }
    table
}

/// Exactly these refusals apply to the call, in this order; the first is given, and nothing
/// changes.
fn refused(before: &Lent, call: &Call, expected: &[u32]) {
    assert_eq!(refusal::numbers(&call.applying(before)), expected, "{call}");
    let mut after = before.clone();
    let said = Model.answer(&mut after, call);
    assert_eq!(said.refusal(), expected.first().copied(), "{call}");
    assert!(expected.is_empty() || after == *before, "{call}");
}
