//! "Refusal numbers": "Checked in ascending order; the lowest that applies is
//! given". A call breaks every rule; mended from the lowest number on, it is
//! refused by one after the other. P5: 17 and 18 "after 14 and before 15"; P6: 20 and 21 "after
//! 19".

use super::*;
use model::mailbox::sum;
use model::{refusal, Call, KeyBlock, Model, Said};
use Call::{Direct, Mailbox};

/// These refusals apply to the call, each tested by itself; the first is given,
/// and nothing changes. If none applies, the call is not refused.
fn check(lent: &Lent, call: &Call, expected: &[u32]) {
    let mut after = lent.clone();
    let said = Model.answer(&mut after, call);
    assert_eq!(refusal::numbers(&call.applying(lent)), expected, "{call}");
    assert_eq!(said.refusal(), expected.first().copied(), "{call}");
    assert!(!matches!(said, Said::Erasure(Erasure::Refused { burns: 1.., .. })), "{call}");
    assert!(expected.is_empty() || after == *lent, "{call}");
}

/// The small drive, its slot blank but for the digest and every fuse of its
/// indicator stuck, the cache full of tag 9, a place of it waiting and one unsure, a reply
/// awaited, and every number of a handle given; what has a lower number is mended: B of 32, a block
/// that lacks a byte, and the slot without data.
fn worst(lowest: u32) -> Lent {
    let mut lent = small(&[(0, u32::from(lowest > 11)), (2, 1)], &[(4, ALL), (5, ALL)]);
    lent.cache = Cache { places: [Place::Held(9); 16], awaited: Some(Awaited::Load) };
    lent.cache.places[..2].copy_from_slice(&[Place::Waiting(9), Place::Unsure(9)]);
    lent.table.greatest = ALL.into();
    lent.drive.image[4] = if lowest > 1 { 60 } else { 32 };
    lent.block.truncate(if lowest > 2 { 128 } else { 127 });
    lent
}

/// A request, for RHPK of a handle that is not there; what has a lower number is mended: a byte too
/// many, a wrong chksum, a reserved field of 1, and for KLOD a tag that is held.
fn request(lowest: u32, command: Mail, partition: u32) -> Request {
    let tag = if command == Mail::Klod && lowest <= 12 { 9 } else { 8 };
    let values = Values { tag, partition, ..Values::default() };
    let mut request = Request::of(command, &Values { reserved: (lowest <= 6).into(), ..values });
    request.bytes[0] ^= u8::from(lowest <= 5);
    request.bytes.extend((lowest <= 4).then_some(0));
    request
}

/// The refusals of a request that breaks every rule, the map's among them or not.
#[test]
fn mailbox_refuses_with_the_first_number_each_time_one_is_mended() {
    let rows: [(Mail, u32, &[u32], &[u32]); 9] = [
        (Mail::Clkc, 0, &[1, 2, 4, 5, 6, 17], &[2, 4, 5, 6, 17]),
        (Mail::Klod, 0, &[1, 2, 4, 5, 6, 12, 13, 17, 18], &[2, 4, 5, 6, 11, 12, 13, 17, 18]),
        (Mail::Kunl, 0, &[1, 2, 4, 5, 6, 14, 17, 18], &[2, 4, 5, 6, 14, 17, 18]),
        (Mail::Fers, 0, &[1, 2, 4, 5, 6, 17], &[2, 4, 5, 6, 10, 17, 15]),
        (Mail::Fers, 1, &[1, 2, 4, 5, 6, 17], &[2, 4, 5, 6, 8, 17]),
        (Mail::Fers, 2, &[1, 2, 4, 5, 6, 17], &[2, 4, 5, 6, 7, 17]),
        (Mail::Fsta, 0, &[1, 2, 4, 5, 6], &[2, 4, 5, 6]),
        (Mail::Ehdl, 0, &[1, 2, 4, 5, 6, 17], &[2, 4, 5, 6, 17]),
        (Mail::Rhpk, 0, &[1, 2, 4, 5, 6, 17, 20, 21], &[2, 4, 5, 6, 17, 20, 21]),
    ];
    for (command, partition, with_bad_map, all) in rows {
        check(&worst(1), &Mailbox(request(1, command, partition)), with_bad_map);
        for (at, lowest) in all.iter().enumerate().filter(|(_, lowest)| **lowest < 15) {
            check(&worst(*lowest), &Mailbox(request(*lowest, command, partition)), &all[at..]);
        }
    }
    let mut one_empty = worst(12);
    one_empty.cache.places[15] = Place::Empty;
    check(&one_empty, &Mailbox(request(12, Mail::Klod, 0)), &[12, 17, 18]);
    for (command, left) in [(Mail::Fers, &[4, 6, 17][..]), (Mail::Rhpk, &[4, 6, 17, 21][..])] {
        let mut names_none = request(6, command, 0);
        names_none.bytes.pop();
        check(&worst(7), &Mailbox(names_none), left);
    }
}

/// Case 8: "FERS 1: refusal 8. FERS 2: refusal 7."
#[test]
fn case_8_software_is_not_zeroizable_and_there_is_no_partition_2() {
    for (partition, number) in [(1, 8), (2, 7), (16, 7), (0x1_0000, 7), (ALL, 7)] {
        check(&small(&[], &[]), &Mailbox(fers(partition)), &[number]);
        for call in [uncut(partition), cut(partition, 0, 1), cut(partition, 9, 1)] {
            check(&small(&[], &[]), &Call::Erase(call), &[number]);
        }
    }
}

/// In the slot, cell 0 is data and cell 2 the digest; cell 1 starts no word.
#[test]
fn direct_commands_and_erasures_are_refused_with_the_lowest_number() {
    let [mut bad_map, mut no_marks] = [worst(1), worst(2)];
    bad_map.drive.marks.pop();
    no_marks.drive.marks.pop();
    check(&bad_map, &Direct(write(2, 0)), &[1, 2]);
    check(&no_marks, &Direct(write(2, 0)), &[2, 8, 9, 10]);
    check(&no_marks, &Direct(read(2)), &[2, 8]);
    check(&no_marks, &Direct(read(1)), &[2, 7]);
    check(&no_marks, &Direct(zeroize(2)), &[2, 10]);
    check(&worst(3), &Direct(write(2, 0)), &[8, 9, 10]);
    check(&worst(12), &Direct(write(0, 2)), &[9, 10]);
    for call in [uncut, |partition| cut(partition, 1, 1), |partition| cut(partition, ALL, 0)] {
        check(&bad_map, &Call::Erase(call(0)), &[1, 2]);
        check(&no_marks, &Call::Erase(call(0)), &[2, 10]);
        check(&no_marks, &Call::Erase(call(1)), &[2, 8]);
        check(&no_marks, &Call::Erase(call(2)), &[2, 7]);
        check(&worst(3), &Call::Erase(call(0)), &[10, 15]);
    }
    // Burn 0 is the one that is cut: nobody asks for 15.
    check(&worst(3), &Call::Erase(cut(0, 0, 1)), &[10]);
}

/// "cells or marks not C long; for the mailbox also block not 128 or response buffer under 20
/// bytes"; P6: "The smallest response buffer becomes 40 bytes, and a table count outside 1 to 3 is
/// refused (both 2)."
#[test]
fn every_length_is_refused_with_2_unless_it_is_right() {
    let fsta = Mailbox(request(7, Mail::Fsta, 0));
    let calls = [fsta, Direct(read(6)), Call::Erase(uncut(0)), Call::Erase(cut(0, 0, 1))];
    let of_drive: [fn(&mut Lent); 6] = [
        |lent| lent.drive.cells.truncate(11),
        |lent| lent.drive.cells.push(0),
        |lent| lent.drive.cells.clear(),
        |lent| lent.drive.marks.truncate(11),
        |lent| lent.drive.marks.push(0),
        |lent| (lent.drive.cells, lent.drive.marks) = (vec![0; 13], vec![0; 13]),
    ];
    let of_mailbox: [fn(&mut Lent); 9] = [
        |lent| lent.block.truncate(127),
        |lent| lent.block.push(0),
        |lent| lent.block.clear(),
        |lent| lent.response.truncate(36),
        |lent| lent.response.truncate(39),
        |lent| lent.table.count = 0,
        |lent| lent.table.count = 4,
        |lent| lent.table.count = 0x1_0000_0001,
        |lent| lent.table.count = u64::MAX,
    ];
    // How many of the calls are refused.
    let rows = of_drive.map(|damage| (4, damage)).into_iter();
    for (refused, damage) in rows.chain(of_mailbox.map(|damage| (1, damage))) {
        let mut lent = small(&[], &[]);
        damage(&mut lent);
        calls[..refused].iter().for_each(|call| check(&lent, call, &[2]));
        calls[refused..].iter().for_each(|call| check(&lent, call, &[]));
    }
    let mut lent = small(&[], &[]);
    lent.response.truncate(40);
    calls.iter().for_each(|call| check(&lent, call, &[]));
    lent.drive.image.clear();
    calls.iter().for_each(|call| check(&lent, call, &[1]));
}

/// An unknown code, any other length, a chksum without the code or off by one.
#[test]
fn requests_are_refused_with_3_4_and_5() {
    for code in [0, 1, 0x5352_4546, 0x4645_5252, 0x434B_4C43, 0x434C_4B42, u32::MAX] {
        for length in [0, 3, 4, 8, 12, 20, 84] {
            let mut request = Request { code, bytes: vec![0; length] };
            let chksum = request.right_chksum().to_le_bytes();
            request.bytes.iter_mut().zip(chksum).for_each(|(byte, sum)| *byte = sum);
            check(&worst(3), &Mailbox(request), &[3]);
        }
    }
    for command in Mail::ALL {
        let right = Request::of(command, &Values::default()).bytes.len();
        for length in (0..100).filter(|length| *length != right) {
            let zeros = Request { code: command.code(), bytes: vec![0; length] };
            let refused = (Reply::Refused(4), small(&[], &[]));
            assert_eq!(mailbox(&small(&[], &[]), &zeros), refused, "{zeros:?}");
        }
    }
    let right = Request::of(Mail::Clkc, &Values::default());
    let (chksum, without_code) = (right.right_chksum(), sum::response_chksum(&right.bytes));
    for wrong in [without_code, chksum.wrapping_add(1), chksum.wrapping_sub(1), !chksum] {
        let mut request = right.clone();
        sum::put_chksum(&mut request.bytes, wrong);
        check(&small(&[], &[]), &Mailbox(request), &[5]);
    }
}
