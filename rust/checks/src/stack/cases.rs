//! The calls whose stack is measured, each with what it is lent and what it comes to by documents
//! 01 and 02: on the small drive, and on the largest map, where the active slot is the last (but
//! for the states) and the cache is as full as what the call comes to allows, so that there is the
//! most to go through.

use crate::calls::requests::fers;
use crate::largest::{self, LAST, SHARE, TAIL};
use crate::small::{self, INDICATOR_STUCK, MAP_TEXT, SLOT};
use crate::{lent, texts};
use model::Command::{Read, Write, Zeroize};
use model::EngineReply::{self, Done, TimedOut};
use model::Mail::{Clkc, Ehdl, Fsta, Klod, Kunl, Rhpk};
use model::{Call, Cut, Erase, KeyBlock, Lent, Mail, Model, Place, Request, Table, Values, PLACES};
use model::{HARDWARE, SOFTWARE};
use sciambrunola::LONGEST_IMAGE;
use std::ops::RangeInclusive;

/// A call that is measured.
pub struct Case {
    /// Its name and what it comes to, as `calls::came` says it.
    pub comes_to: &'static str,
    pub lent: Lent,
    pub call: Call,
}

/// A tag for every place, the last of them in the last place; for every place but that one; and
/// a tag that is in none.
const ALL: RangeInclusive<u64> = 1..=LAST_TAG;
const LAST_TAG: u64 = 16;
const ALL_BUT_ONE: RangeInclusive<u64> = 1..=LAST_TAG - 1;
const OTHER_TAG: u64 = LAST_TAG + 1;

/// A software word of the small drive, which READ and WRITE may touch.
const SOFTWARE_WORD: u32 = 6;

/// Marks that keep the digest short, and those that let no fuse of the indicator be set; each with
/// its cell, counted back from the end of a zeroizable partition.
const DIGEST_SHORT: &[(usize, u32)] = &[(TAIL, 0x1F)];
const INDICATOR_UNSET: &[(usize, u32)] = &[(2, u32::MAX), (1, u32::MAX)];

/// All of them, in the order of the table's rows.
pub fn all() -> Vec<Case> {
    let mailbox = [clkc(), klod(), kunl(), by_fers(), fsta(), ehdl(), rhpk(), unknown()];
    let others = [reading(), direct(), erasures(), restarts(), replies(), tables()];
    others.into_iter().chain(mailbox).flatten().collect()
}

fn case(comes_to: &'static str, lent: Lent, call: Call) -> Case {
    Case { comes_to, lent, call }
}

/// The small drive with these tags held.
fn small(tags: impl IntoIterator<Item = u64>) -> Lent {
    lent::holding(small::stuck(&[]), tags)
}

/// The largest map, of slots alone, with these tags held.
fn large(tags: impl IntoIterator<Item = u64>) -> Lent {
    lent::holding(lent::of(largest::last_slot_active()), tags)
}

/// The largest map with every place held and a first partition of this kind that is no slot, so
/// that it can change all the same.
fn beside_slots(kind: u8) -> Lent {
    lent::holding(lent::of(largest::first_no_slot(kind)), ALL)
}

/// What can be erased on the largest map: the last slot with no key held, and partitions that are
/// no slots, of pairs and of single cells, with every place held; each with these fuses stuck. With
/// a short digest the lowest short pair is found after all data, with an unset indicator 15 is given.
fn to_erase(stuck: &[(usize, u32)]) -> [(Lent, u32); 3] {
    [(large([]), LAST), (beside_slots(HARDWARE), 0), (beside_slots(SOFTWARE), 0)].map(
        |(mut lent, partition)| {
            let end = (partition as usize + 1) * SHARE;
            stuck.iter().for_each(|(back, mark)| lent.drive.marks[end - back] = *mark);
            (lent, partition)
        },
    )
}

fn reading() -> Vec<Case> {
    let mut torn = small([]);
    torn.drive.cells[4..6].fill(u32::MAX);
    let writing = || Lent { output: vec![0xA5; LONGEST_IMAGE], ..Lent::default() };
    vec![
        case("fields 0/7", small([]), Call::Partition(SLOT)),
        case("fields 0/7", large([]), Call::Partition(LAST)),
        case("states 2", small([]), Call::States),
        case("states 16", lent::of(largest::every_state()), Call::States),
        case("why torn", torn, Call::Why),
        case("why torn", lent::of(largest::last_slot_torn()), Call::Why),
        case("place held", small([1]), Call::Place(0)),
        case("place held", large(ALL), Call::Place(15)),
        case("write map written", writing(), Call::WriteMap(MAP_TEXT.into())),
        case("write map written", writing(), Call::WriteMap(texts::spelled(&largest::slots()))),
    ]
}

/// On the largest map a word that is shown, and for WRITE and ZEROIZE one of the last slot too.
fn direct() -> Vec<Case> {
    let last = LAST * SHARE as u32;
    let calls = [
        ("READ word", small([]), Read { cell: SOFTWARE_WORD }),
        ("READ word", beside_slots(SOFTWARE), Read { cell: 0 }),
        ("WRITE word", small([]), Write { cell: SOFTWARE_WORD, value: 5 }),
        ("WRITE word", beside_slots(SOFTWARE), Write { cell: 0, value: 5 }),
        ("WRITE done", large([]), Write { cell: last, value: u64::MAX }),
        ("ZEROIZE word", small([]), Zeroize { cell: 0 }),
        ("ZEROIZE word", beside_slots(SOFTWARE), Zeroize { cell: 0 }),
        ("ZEROIZE word", large([]), Zeroize { cell: last }),
    ];
    calls.map(|(comes_to, lent, command)| case(comes_to, lent, Call::Direct(command))).into()
}

/// On the largest map the cut is at the last burn of a partition of pairs.
fn erasures() -> Vec<Case> {
    let erase = |partition, cut| Call::Erase(Erase { partition, cut });
    let at = |k| Some(Cut { k, mask: 1 });
    let last_burn = SHARE as u32 / 2 - 1;
    let mut cases = vec![case("erasure erased", small([]), erase(SLOT, None))];
    for (lent, partition) in to_erase(DIGEST_SHORT) {
        cases.push(case("erasure erased", lent, erase(partition, None)));
    }
    cases.push(case("cut erasure cut", small([]), erase(SLOT, at(2))));
    for (lent, partition) in to_erase(DIGEST_SHORT) {
        cases.push(case("cut erasure cut", lent, erase(partition, at(last_burn))));
    }
    cases
}

fn restarts() -> Vec<Case> {
    [small([1]), large(ALL)].map(|lent| case("restart nothing", lent, Call::Restart)).into()
}

/// The same where every place that is held waits under a clear.
fn waiting(mut lent: Lent) -> Lent {
    Model.answer(&mut lent, &Call::Mailbox(plain(Clkc, 0)));
    lent
}

/// The same where no reply is awaited and the last place alone waits, so that all are looked at.
fn last_waits(mut lent: Lent) -> Lent {
    lent.cache.awaited = None;
    lent.cache.places[PLACES - 1] = Place::Waiting(0);
    lent
}

/// The same where every place that is held is unsure.
fn unsure(lent: Lent) -> Lent {
    let mut lent = waiting(lent);
    Model.answer(&mut lent, &Call::EngineReply(TimedOut));
    lent
}

fn replies() -> Vec<Case> {
    let reply = |comes_to, lent, reply| case(comes_to, lent, Call::EngineReply(reply));
    let taken = |lent: Lent| {
        let replies = [Done, TimedOut, EngineReply::Failed(7)];
        replies.map(|given| reply("engine reply taken", waiting(lent.clone()), given))
    };
    let refused = [small([1]), large(ALL)].map(|lent| reply("engine reply refused 19", lent, Done));
    [small([1]), large(ALL)].into_iter().flat_map(taken).chain(refused).collect()
}

/// Of three handles, of which the last two are compared last.
fn tables() -> Vec<Case> {
    let make = |comes_to, lent: Lent, handles: [u32; 3]| {
        let (handles, algorithms) = (handles.to_vec(), vec![1, 2, 3]);
        case(comes_to, lent, Call::MakeTable { handles, algorithms })
    };
    let none = || Lent { table: Table::default(), ..large(ALL) };
    vec![
        make("make table made", none(), [1, 2, 3]),
        make("make table refused 2", none(), [1, 2, 2]),
        make("make table refused 2", large(ALL), [1, 2, 3]),
    ]
}

/// A mailbox call.
fn mail(comes_to: &'static str, lent: Lent, request: Request) -> Case {
    case(comes_to, lent, Call::Mailbox(request))
}

/// The request of a command that has a tag.
fn tagged(command: Mail, tag: u64) -> Request {
    Request::of(command, &Values { tag, mek: [0x6B; 64], timeout: 1000, ..Values::default() })
}

/// The request of a command that has neither tag nor partition, with this reserved field.
fn plain(command: Mail, reserved: u32) -> Request {
    Request::of(command, &Values { reserved, timeout: 1000, ..Values::default() })
}

fn clkc() -> Vec<Case> {
    vec![
        mail("CLKC clear", small([1]), plain(Clkc, 0)),
        mail("CLKC clear", large(ALL), plain(Clkc, 0)),
        mail("CLKC refused 6", small([1]), plain(Clkc, 1)),
        mail("CLKC refused 6", large(ALL), plain(Clkc, 1)),
        mail("CLKC clear", unsure(large(ALL)), plain(Clkc, 0)),
        mail("CLKC refused 17", waiting(large(ALL)), plain(Clkc, 0)),
        mail("CLKC refused 17", last_waits(large(ALL)), plain(Clkc, 0)),
    ]
}

fn klod() -> Vec<Case> {
    let torn = lent::holding(lent::of(largest::last_slot_torn()), ALL);
    vec![
        mail("KLOD load", small([2]), tagged(Klod, 1)),
        mail("KLOD load", large(ALL_BUT_ONE), tagged(Klod, OTHER_TAG)),
        mail("KLOD refused 12", small([1]), tagged(Klod, 1)),
        mail("KLOD refused 11", torn, tagged(Klod, OTHER_TAG)),
        mail("KLOD refused 12", large(ALL), tagged(Klod, LAST_TAG)),
        mail("KLOD refused 13", large(ALL), tagged(Klod, OTHER_TAG)),
        mail("KLOD refused 17", waiting(large(ALL_BUT_ONE)), tagged(Klod, OTHER_TAG)),
        mail("KLOD refused 18", unsure(large(ALL_BUT_ONE)), tagged(Klod, OTHER_TAG)),
    ]
}

fn kunl() -> Vec<Case> {
    vec![
        mail("KUNL unload", small([1]), tagged(Kunl, 1)),
        mail("KUNL unload", large(ALL), tagged(Kunl, LAST_TAG)),
        mail("KUNL refused 14", small([2]), tagged(Kunl, 1)),
        mail("KUNL refused 14", large(ALL), tagged(Kunl, OTHER_TAG)),
        mail("KUNL refused 17", waiting(large(ALL)), tagged(Kunl, LAST_TAG)),
        mail("KUNL refused 18", unsure(large(ALL)), tagged(Kunl, LAST_TAG)),
    ]
}

fn by_fers() -> Vec<Case> {
    let mut cases = vec![mail("FERS none", small([]), fers(SLOT))];
    for (lent, partition) in to_erase(DIGEST_SHORT) {
        cases.push(mail("FERS none", lent, fers(partition)));
    }
    cases.push(mail("FERS refused 10", small([1]), fers(SLOT)));
    cases.push(mail("FERS refused 10", large(ALL), fers(LAST)));
    cases.push(mail("FERS refused 15", small::stuck(INDICATOR_STUCK), fers(SLOT)));
    for (lent, partition) in to_erase(INDICATOR_UNSET) {
        cases.push(mail("FERS refused 15", lent, fers(partition)));
    }
    cases.push(mail("FERS refused 17", waiting(beside_slots(HARDWARE)), fers(0)));
    cases
}

fn fsta() -> Vec<Case> {
    vec![
        mail("FSTA none", small([1]), plain(Fsta, 0)),
        mail("FSTA none", large(ALL), plain(Fsta, 0)),
        mail("FSTA none", waiting(large(ALL)), plain(Fsta, 0)),
        mail("FSTA refused 6", small([1]), plain(Fsta, 1)),
        mail("FSTA refused 6", large(ALL), plain(Fsta, 1)),
    ]
}

fn ehdl() -> Vec<Case> {
    vec![
        mail("EHDL none", small([1]), plain(Ehdl, 0)),
        mail("EHDL none", large(ALL), plain(Ehdl, 0)),
        mail("EHDL refused 6", small([1]), plain(Ehdl, 1)),
        mail("EHDL refused 6", large(ALL), plain(Ehdl, 1)),
        mail("EHDL refused 17", waiting(large(ALL)), plain(Ehdl, 0)),
        mail("EHDL refused 17", last_waits(large(ALL)), plain(Ehdl, 0)),
    ]
}

/// Of the handle in the last place, and of one that is in none.
fn rhpk() -> Vec<Case> {
    let rotate = |handle| Request::of(Rhpk, &Values { handle, ..Values::default() });
    let last = lent::table().handles[2].number;
    let mut used_up = large(ALL);
    used_up.table.greatest = u32::MAX.into();
    vec![
        mail("RHPK none", small([1]), rotate(last)),
        mail("RHPK none", large(ALL), rotate(last)),
        mail("RHPK refused 20", small([1]), rotate(0)),
        mail("RHPK refused 20", large(ALL), rotate(0)),
        mail("RHPK refused 21", used_up, rotate(last)),
        mail("RHPK refused 17", waiting(large(ALL)), rotate(last)),
    ]
}

/// A code of no command.
fn unknown() -> Vec<Case> {
    let request = Request { code: 0, ..plain(Fsta, 0) };
    [small([1]), large(ALL)].map(|lent| mail("other refused 3", lent, request.clone())).into()
}
