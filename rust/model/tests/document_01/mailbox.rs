//! "Mailbox", on the small drive, with its cases 1, 9 and 10: requests and
//! responses byte by byte. FERS stands with the erasure; what the engine's reply does, with P5.

use super::*;
use model::engine::{reply, EngineReply};
use model::mailbox::fields;
use Place::{Empty, Held, Waiting};

/// 1 to 64.
fn mek() -> [u8; 64] {
    std::array::from_fn(|number| number as u8 + 1)
}

fn request(command: Mail, timeout: u32, tag: u64) -> Request {
    Request::of(command, &Values { timeout, tag, mek: mek(), ..Values::default() })
}

/// The request is accepted with this order and response; nothing past the
/// response, nothing of drive and table, and without an order nothing of cache and
/// block changes. Gives what is lent afterwards.
fn check(before: &Lent, request: &Request, order: Order, response: &[u8]) -> Lent {
    let (reply, after) = mailbox(before, request);
    assert_eq!(reply, Reply::Accepted { length: response.len(), order });
    assert_eq!(after.response, [response, &before.response[response.len()..]].concat());
    assert_eq!((&after.drive, &after.table), (&before.drive, &before.table));
    if order == Order::None {
        assert_eq!((&after.cache, &after.block), (&before.cache, &before.block));
    }
    after
}

/// Codes, and lengths that follow from the columns of the table; then P6's two.
#[test]
fn commands_are_those_of_the_table_and_p6s() {
    let names = ["CLKC", "KLOD", "KUNL", "FERS", "FSTA", "EHDL", "RHPK"];
    let of_table = [0x434C_4B43, 0x4B4C_4F44, 0x4B55_4E4C, 0x4645_5253, 0x4653_5441];
    let codes = [&of_table[..], &[0x4548_444C, 0x5248_504B]].concat();
    assert_eq!((Mail::ALL.map(Mail::name), &Mail::ALL.map(Mail::code)[..]), (names, &codes[..]));
    let lengths = Mail::ALL.map(|command| fields::length(command.request_fields()));
    assert_eq!(lengths, [12, 84, 20, 12, 8, 8, 12]);
}

/// Case 1: "active 0, available 1", and "0xFFFFFFFF" when every slot is erased.
#[test]
fn case_1_fsta_answers_slot_and_hek() {
    let fsta = request(Mail::Fsta, 0, 0);
    assert_eq!(fsta.bytes, [0xD2, 0xFE, 0xFF, 0xFF, 0, 0, 0, 0]);
    let response = [&[0xFF; 4][..], &[0; 12], &[1, 0, 0, 0]].concat();
    check(&held(small(&[], &[]), 0), &fsta, Order::None, &response);
    let erased = small(&[0, 1, 2, 3, 4, 5].map(|cell| (cell, ALL)), &[]);
    let response = [&[0x04, 0xFC, 0xFF, 0xFF][..], &[0; 8], &[0xFF; 4], &[0; 4]].concat();
    check(&erased, &fsta, Order::None, &response);
}

/// "CLKC empties it too", by P5 once the engine is done: until then every place waits.
#[test]
fn case_9_clkc_clears_the_block_and_empties_the_cache_after_done() {
    let clkc = request(Mail::Clkc, 1000, 0);
    assert_eq!(clkc.bytes, [0xF8, 0xFD, 0xFF, 0xFF, 0, 0, 0, 0, 0xE8, 0x03, 0, 0]);
    let mut before = small(&[], &[]);
    before.cache.places = [Held(9); 16];
    let after = check(&before, &clkc, Order::Clear { timeout: 1000 }, &[0; 12]);
    let waiting = Cache { places: [Waiting(9); 16], awaited: Some(Awaited::Clear) };
    assert_eq!((&after.cache, &after.block), (&waiting, &vec![0; 128]));
    let emptied = Lent { cache: Cache::default(), ..after.clone() };
    assert_eq!(reply(&after, EngineReply::Done), (Ok(()), emptied));
}

/// "load; MEK, METD = tag in 8 bytes then zeros, AUX zero" and "unload; as load
/// with MEK zero". "KUNL frees the lowest place that holds its tag", by P5 once the engine is done.
#[test]
fn klod_hands_key_and_tag_to_the_engine_and_kunl_the_tag() {
    let tag = 0x8877_6655_4433_2211;
    let tag_bytes = [0x11, 0x22, 0x33, 0x44, 0x55, 0x66, 0x77, 0x88];
    let klod = request(Mail::Klod, 5, tag);
    // Code 298, timeout 5, tag 612, MEK 2,080.
    let chksum = 0_u32.wrapping_sub(298 + 5 + 612 + 2080).to_le_bytes();
    let bytes = [&chksum[..], &[0, 0, 0, 0, 5, 0, 0, 0], &tag_bytes, &mek()].concat();
    assert_eq!(klod.bytes, bytes);
    let load = Order::Load { place: 1, timeout: 5 };
    let response = [&[0xFF; 4][..], &[0; 8], &[1, 0, 0, 0]].concat();
    let mut lent = check(&held(small(&[], &[]), 0), &klod, load, &response);
    assert_eq!(lent.cache.places[..3], [Held(7), Waiting(tag), Empty]);
    assert_eq!(lent.cache.awaited, Some(Awaited::Load));
    assert_eq!(lent.block, [&mek()[..], &tag_bytes, &[0; 56]].concat());
    let low_half = Held(tag & 0xFFFF_FFFF);
    lent.cache = Cache::default();
    lent.cache.places[..4].copy_from_slice(&[low_half, Empty, Held(tag), Held(tag)]);
    let unload = Order::Unload { place: 2, timeout: 6 };
    let after = check(&lent, &request(Mail::Kunl, 6, tag), unload, &[0; 12]);
    assert_eq!(after.cache.places[..5], [low_half, Empty, Waiting(tag), Held(tag), Empty]);
    assert_eq!(after.cache.awaited, Some(Awaited::Unload));
    assert_eq!(after.block, [&[0; 64][..], &tag_bytes, &[0; 56]].concat());
}

/// "Sixteen loads fill places 0 to 15, the seventeenth new tag is 13, a held tag
/// 12; unload place 3's tag, and the next load gets place 3." P5: "In case 10 each order is
/// answered done."
#[test]
fn case_10_sixteen_loads_fill_the_cache_and_a_freed_place_is_taken_again() {
    let mut lent = small(&[], &[]);
    let mut check = |command, tag, expected| {
        let (replied, after) = mailbox(&lent, &request(command, 5, tag));
        assert_eq!(replied, expected, "{command:?} {tag}");
        let ordered = matches!(expected, Reply::Accepted { .. });
        let (taken, answered) = reply(&after, EngineReply::Done);
        assert_eq!(taken, if ordered { Ok(()) } else { Err(19) }, "{command:?} {tag}");
        lent = answered;
    };
    let load = |place| Reply::Accepted { length: 16, order: Order::Load { place, timeout: 5 } };
    (0..16).for_each(|place| check(Mail::Klod, 100 + u64::from(place), load(place)));
    check(Mail::Klod, 116, Reply::Refused(13));
    check(Mail::Klod, 107, Reply::Refused(12));
    let order = Order::Unload { place: 3, timeout: 5 };
    check(Mail::Kunl, 103, Reply::Accepted { length: 12, order });
    check(Mail::Kunl, 103, Reply::Refused(14));
    check(Mail::Klod, 116, load(3));
}
