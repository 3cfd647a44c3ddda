//! P6, "The handle messages", on the small drive. What 2 is given for stands with document 01, and
//! 17 with P5.

use super::{refused, small, table};
use model::cache::restart;
use model::erasure::erase;
use model::mailbox::mailbox;
use model::{handles, Awaited, Call, Cut, Erase, Lent, Mail, Order, Reply, Request, Table, Values};

const MOST: u64 = 0xFFFF_FFFF;

fn ehdl() -> Request {
    Request::of(Mail::Ehdl, &Values::default())
}

fn rhpk(handle: u32) -> Request {
    Request::of(Mail::Rhpk, &Values { handle, ..Values::default() })
}

/// The request is accepted without an order, with these fields behind a chksum, fips_status and
/// reserved, and leaves this table; nothing past the response and nothing else changes.
fn accepted(before: &Lent, request: &Request, chksum: u32, fields: &[u32], left: Table) -> Lent {
    let (reply, after) = mailbox(before, request);
    let response = [&[chksum, 0, 0], fields].concat();
    let response: Vec<u8> = response.into_iter().flat_map(u32::to_le_bytes).collect();
    assert_eq!(reply, Reply::Accepted { length: response.len(), order: Order::None });
    let response = [&response, &before.response[response.len()..]].concat();
    assert_eq!(after, Lent { response, table: left, ..before.clone() });
    after
}

/// "EHDL, 0x4548444C, request without further field, response: count, then handle and algorithm
/// for each": 24, 32 or 40 bytes. What stands past the count is not told.
#[test]
fn p6_ehdl_answers_the_count_then_handle_and_algorithm_for_each() {
    // The code's bytes sum to 285.
    assert_eq!(ehdl().bytes, [0xE3, 0xFE, 0xFF, 0xFF, 0, 0, 0, 0]);
    let three = [[5, 1], [0x0102_0304, 0x8000_0002], [0xFFFF_FFFF, 0]];
    let one = table(&three[..1], 5);
    accepted(&small(one.clone()), &ehdl(), 0xFFFF_FFF9, &[1, 5, 1], one);
    let two = Table { count: 2, ..table(&three, MOST) };
    let fields = [2, 5, 1, 0x0102_0304, 0x8000_0002];
    accepted(&small(two.clone()), &ehdl(), 0xFFFF_FF6C, &fields, two);
    let all = table(&three, MOST);
    let fields = [3, 5, 1, 0x0102_0304, 0x8000_0002, 0xFFFF_FFFF, 0];
    accepted(&small(all.clone()), &ehdl(), 0xFFFF_FB6F, &fields, all);
}

/// "RHPK, 0x5248504B, request: handle, response: the new handle"; "rotation replaces one at its
/// place, keeping the algorithm, and the new number is one above the greatest ever given". What
/// RHPK gave, EHDL tells.
#[test]
fn p6_rhpk_replaces_a_handle_at_its_place_with_one_above_the_greatest() {
    // The code's bytes sum to 309.
    let bytes = [0xC6, 0xFE, 0xFF, 0xFF, 0, 0, 0, 0, 5, 0, 0, 0];
    assert_eq!(rhpk(5).bytes, bytes);
    let new = small(table(&[[5, 1], [9, 2], [7, 2]], 9));
    let once = table(&[[10, 1], [9, 2], [7, 2]], 10);
    let lent = accepted(&new, &rhpk(5), 0xFFFF_FFF6, &[10], once.clone());
    let lent = accepted(&lent, &ehdl(), 0xFFFF_FFDE, &[3, 10, 1, 9, 2, 7, 2], once);
    refused(&lent, &Call::Mailbox(rhpk(5)), &[20]);
    let twice = table(&[[10, 1], [9, 2], [11, 2]], 11);
    let lent = accepted(&lent, &rhpk(7), 0xFFFF_FFF5, &[11], twice);
    let left = table(&[[12, 1], [9, 2], [11, 2]], 12);
    accepted(&lent, &rhpk(10), 0xFFFF_FFF4, &[12], left);
}

/// "In any other table the lowest place with the handle is meant", of those that the count says.
/// There a number may be given that the table has already.
#[test]
fn p6_in_any_other_table_the_lowest_place_with_the_handle_is_meant() {
    let same = small(table(&[[7, 1], [7, 2], [7, 3]], 3));
    let lent = accepted(&same, &rhpk(7), 0xFFFF_FFFC, &[4], table(&[[4, 1], [7, 2], [7, 3]], 4));
    let lent = accepted(&lent, &rhpk(7), 0xFFFF_FFFB, &[5], table(&[[4, 1], [5, 2], [7, 3]], 5));
    let lent = accepted(&lent, &rhpk(7), 0xFFFF_FFFA, &[6], table(&[[4, 1], [5, 2], [6, 3]], 6));
    refused(&lent, &Call::Mailbox(rhpk(7)), &[20]);
    let below = small(table(&[[4, 1], [5, 2]], 3));
    let lent = accepted(&below, &rhpk(5), 0xFFFF_FFFC, &[4], table(&[[4, 1], [4, 2]], 4));
    accepted(&lent, &rhpk(4), 0xFFFF_FFFB, &[5], table(&[[5, 1], [4, 2]], 5));
    let past = small(Table { count: 2, ..table(&[[7, 1], [8, 2], [9, 3]], 9) });
    refused(&past, &Call::Mailbox(rhpk(9)), &[20]);
    // An empty place is no handle 0.
    refused(&small(table(&[[7, 1]], 7)), &Call::Mailbox(rhpk(0)), &[20]);
}

/// "20 no such handle, 21 numbers used up": no number is above 2^32 - 1, which is the last one.
#[test]
fn p6_20_no_such_handle_21_numbers_used_up() {
    let last = small(table(&[[7, 1], [8, 2]], MOST - 1));
    let left = table(&[[7, 1], [0xFFFF_FFFF, 2]], MOST);
    let used_up = accepted(&last, &rhpk(8), 0xFFFF_FC04, &[0xFFFF_FFFF], left);
    refused(&used_up, &Call::Mailbox(rhpk(7)), &[21]);
    refused(&used_up, &Call::Mailbox(rhpk(8)), &[20, 21]);
    for greatest in [MOST, MOST + 1, MOST + 8, u64::MAX] {
        let mut lent = small(table(&[[7, 1], [8, 2]], greatest));
        refused(&lent, &Call::Mailbox(rhpk(8)), &[21]);
        refused(&lent, &Call::Mailbox(rhpk(9)), &[20, 21]);
        refused(&lent, &Call::Mailbox(ehdl()), &[]);
        lent.cache.awaited = Some(Awaited::Load);
        refused(&lent, &Call::Mailbox(rhpk(8)), &[17, 21]);
        refused(&lent, &Call::Mailbox(rhpk(9)), &[17, 20, 21]);
        // Without a table there is no handle to look for.
        lent.table.count = 0;
        refused(&lent, &Call::Mailbox(rhpk(9)), &[2, 17]);
    }
}

/// The table is kept, "which a restart leaves"; a cut too, and an erasure.
#[test]
fn p6_a_restart_and_a_cut_leave_the_table() {
    let lent = small(table(&[[7, 1], [8, 2]], 9));
    assert_eq!(restart(&lent), lent);
    for cut in [None, Some(Cut { k: 0, mask: 1 }), Some(Cut { k: 3, mask: 1 })] {
        assert_eq!(erase(&lent, Erase { partition: 0, cut }).1.table, lent.table, "{cut:?}");
    }
}

/// "A fresh table has distinct handles, and their largest as the greatest given." Any number is a
/// handle, and any an algorithm. Nothing is left of what stood where no table was.
#[test]
fn p6_a_table_that_is_made_is_fresh() {
    let rows: [(&[u32], &[u32], Table); 4] = [
        (&[0], &[0], table(&[[0, 0]], 0)),
        (&[0xFFFF_FFFF], &[6], table(&[[0xFFFF_FFFF, 6]], MOST)),
        (&[4, 3], &[1, 1], table(&[[4, 1], [3, 1]], 4)),
        (&[3, 9, 6], &[2, 0xFFFF_FFFF, 1], table(&[[3, 2], [9, 0xFFFF_FFFF], [6, 1]], 9)),
    ];
    let odd = Table { count: 0, ..table(&[[9, 9], [9, 9], [9, 9]], 99) };
    for (numbers, algorithms, made) in rows {
        for before in [Lent::default(), small(Table::default()), small(odd.clone())] {
            let after = Lent { table: made.clone(), ..before.clone() };
            assert_eq!(handles::make(&before, numbers, algorithms), (Ok(()), after));
        }
    }
}

/// Any other making is refused (2): none or more than three handles, not as many algorithms, a
/// handle twice, and any where there is a table, though it be damaged.
#[test]
fn p6_any_other_table_is_not_made() {
    let rows: [(&[u32], &[u32]); 9] = [
        (&[], &[]),
        (&[], &[1]),
        (&[1, 2, 3, 4], &[1, 1, 1, 1]),
        (&[1, 2, 3], &[1, 1]),
        (&[1, 2], &[1, 1, 1]),
        (&[1], &[]),
        (&[1, 1], &[1, 2]),
        (&[1, 2, 1], &[1, 2, 3]),
        (&[2, 1, 1], &[1, 2, 3]),
    ];
    let making = |handles: &[u32], algorithms: &[u32]| {
        let (handles, algorithms) = (handles.to_vec(), algorithms.to_vec());
        Call::MakeTable { handles, algorithms }
    };
    for (numbers, algorithms) in rows {
        refused(&small(Table::default()), &making(numbers, algorithms), &[2]);
    }
    for count in [1, 2, 3, 4, 0x1_0000_0000, u64::MAX] {
        let there = Table { count, ..table(&[[7, 1]], 7) };
        refused(&small(there), &making(&[8], &[1]), &[2]);
    }
}
