//! P5, "The engine that does not answer", on the small drive. Case 10 and the order of all refusals
//! stand with document 01.

use model::cache::restart;
use model::direct::direct;
use model::erasure::erase;
use model::mailbox::mailbox;
use model::{engine, refusal, Answer, Awaited, Cache, Call, Command, Cut, EngineReply, Erase};
use model::{Erasure, Lent, Mail, Order, Place, Reply, Request, Values, PLACES};
use Awaited::{Clear, Load, Unload};
use EngineReply::{Done, Failed, TimedOut};
use Place::{Empty, Held, Unsure, Waiting};

/// "timed out, or failed with a vendor number (u32, not kept)"
const NOT_DONE: [EngineReply; 4] = [TimedOut, Failed(0), Failed(1), Failed(u32::MAX)];

/// The cache with these lowest places, and this reply awaited.
fn cache(lowest: &[Place], awaited: Option<Awaited>) -> Cache {
    let mut places = [Empty; PLACES];
    places[..lowest.len()].copy_from_slice(lowest);
    Cache { places, awaited }
}

/// The small drive with that cache, and a table of one handle, which is 0.
fn small(lowest: &[Place], awaited: Option<Awaited>) -> Lent {
    Lent { cache: cache(lowest, awaited), ..super::small(super::table(&[[0, 1]], 0)) }
}

fn request(command: Mail, tag: u64, partition: u32) -> Request {
    Request::of(command, &Values { tag, partition, timeout: 5, ..Values::default() })
}

/// The command is carried out with this order, and leaves this cache.
fn ordered(before: &Lent, command: Mail, tag: u64, order: Order, left: Cache) -> Lent {
    let (reply, after) = mailbox(before, &request(command, tag, 0));
    assert!(matches!(reply, Reply::Accepted { order: given, .. } if given == order), "{reply:?}");
    assert_eq!(after.cache, left);
    after
}

/// The reply is taken, leaves this cache, and changes nothing else.
fn replied(before: &Lent, reply: EngineReply, left: Cache) {
    let after = Lent { cache: left, ..before.clone() };
    assert_eq!(engine::reply(before, reply), (Ok(()), after), "{reply:?}");
}

/// "any other reply" than done leaves this cache.
fn not_done(before: &Lent, left: Cache) {
    NOT_DONE.into_iter().for_each(|reply| replied(before, reply, left.clone()));
}

/// Exactly these refusals apply to the command.
fn refused(before: &Lent, (command, tag, partition): (Mail, u64, u32), expected: &[u32]) {
    super::refused(before, &Call::Mailbox(request(command, tag, partition)), expected);
}

/// "A cache place is empty, waiting, held or unsure": as C is told it, and past the last place.
#[test]
fn p5_a_place_is_empty_waiting_held_or_unsure() {
    let each = cache(&[Empty, Held(8), Waiting(7), Unsure(9)], None);
    let told = [0, 1, 2, 3, 16, u32::MAX].map(|number| each.place(number).told());
    assert_eq!(told, [[0, 0], [1, 8], [2, 7], [3, 9], [0, 0], [0, 0]]);
}

/// "A load's place waits, and is held only after done; any other reply makes it unsure."
#[test]
fn p5_a_loads_place_waits_and_is_held_only_after_done() {
    let before = small(&[Held(7)], None);
    let order = Order::Load { place: 1, timeout: 5 };
    let waits = cache(&[Held(7), Waiting(8)], Some(Load));
    let after = ordered(&before, Mail::Klod, 8, order, waits);
    replied(&after, Done, cache(&[Held(7), Held(8)], None));
    not_done(&after, cache(&[Held(7), Unsure(8)], None));
}

/// "The place of an unload [...] waits until the reply; done empties it, any other reply makes it
/// unsure."
#[test]
fn p5_an_unloads_place_waits_and_is_emptied_by_done() {
    let before = small(&[Empty, Held(8), Held(7)], None);
    let order = Order::Unload { place: 1, timeout: 5 };
    let waits = cache(&[Empty, Waiting(8), Held(7)], Some(Unload));
    let after = ordered(&before, Mail::Kunl, 8, order, waits);
    replied(&after, Done, cache(&[Empty, Empty, Held(7)], None));
    not_done(&after, cache(&[Empty, Unsure(8), Held(7)], None));
}

/// "every held or unsure place under a clear, waits until the reply; done empties it, any other
/// reply makes it unsure." A clear of an empty cache is an order too.
#[test]
fn p5_every_place_under_a_clear_waits_and_is_emptied_by_done() {
    let order = Order::Clear { timeout: 5 };
    let before = small(&[Held(7), Empty, Unsure(8), Held(9)], None);
    let waits = cache(&[Waiting(7), Empty, Waiting(8), Waiting(9)], Some(Clear));
    let after = ordered(&before, Mail::Clkc, 0, order, waits);
    replied(&after, Done, Cache::default());
    not_done(&after, cache(&[Unsure(7), Empty, Unsure(8), Unsure(9)], None));
    let empty = ordered(&small(&[], None), Mail::Clkc, 0, order, cache(&[], Some(Clear)));
    replied(&empty, Done, Cache::default());
    not_done(&empty, Cache::default());
}

/// "19 a reply when none is awaited": a second one, and one where a place waits though none is
/// awaited, which no call leaves.
#[test]
fn p5_19_a_reply_when_none_is_awaited() {
    for reply in NOT_DONE.into_iter().chain([Done]) {
        for before in [small(&[], None), small(&[Held(7), Unsure(8), Waiting(9)], None)] {
            let call = Call::EngineReply(reply);
            assert_eq!(refusal::numbers(&call.applying(&before)), [19]);
            assert_eq!(engine::reply(&before, reply), (Err(19), before));
        }
        let (_, once) = engine::reply(&small(&[Waiting(8)], Some(Load)), reply);
        assert_eq!(engine::reply(&once, reply), (Err(19), once));
    }
}

/// Places that do not wait stay as they are under any reply, and all that wait follow it, where no
/// call leaves them so: several under a load or an unload, some beside an unsure one.
#[test]
fn p5_a_reply_is_for_the_waiting_places_alone() {
    let before = |awaited| small(&[Unsure(1), Waiting(2), Held(3), Empty, Waiting(2)], awaited);
    let after = |place| cache(&[Unsure(1), place, Held(3), Empty, place], None);
    replied(&before(Some(Load)), Done, after(Held(2)));
    replied(&before(Some(Unload)), Done, after(Empty));
    replied(&before(Some(Clear)), Done, after(Empty));
    for awaited in [Load, Unload, Clear] {
        not_done(&before(Some(awaited)), after(Unsure(2)));
    }
}

/// "Waiting and unsure places count as held for refusals 10, 12 and 13." "KUNL finds a waiting or
/// unsure tag but is refused on it", so that 14 is not given.
#[test]
fn p5_waiting_and_unsure_places_count_as_held() {
    for (place, awaited, number) in [(Waiting(8), Some(Load), 17), (Unsure(8), None, 18)] {
        let one = small(&[Empty, place], awaited);
        let write = Command::Write { cell: 0, value: 3 };
        let refused_with_10 = Erasure::Refused { number: 10, burns: 0 };
        assert_eq!(direct(&one, write), (Answer::Refused(10), one.clone()));
        assert_eq!(direct(&one, Command::Zeroize { cell: 4 }), (Answer::Refused(10), one.clone()));
        assert_eq!(erase(&one, Erase { partition: 0, cut: None }), (refused_with_10, one.clone()));
        let fers: &[u32] = if number == 17 { &[10, 17] } else { &[10] };
        refused(&one, (Mail::Fers, 0, 0), fers);
        refused(&one, (Mail::Klod, 8, 0), &[12, number]);
        refused(&one, (Mail::Klod, 9, 0), &[number]);
        refused(&one, (Mail::Kunl, 8, 0), &[number]);
        refused(&one, (Mail::Kunl, 9, 0), &[14, number]);
        refused(&small(&[place; PLACES], awaited), (Mail::Klod, 9, 0), &[13, number]);
        refused(&small(&[place; PLACES], awaited), (Mail::Klod, 8, 0), &[12, 13, number]);
    }
}

/// "17 a mailbox command other than FSTA while a reply is awaited or a place waits; 18 KLOD or KUNL
/// while a place is unsure", in this order, "after 14 and before 15".
#[test]
fn p5_17_and_18_stand_after_14_and_before_15() {
    let all = |before: &Lent, expected: [&[u32]; 7]| {
        let tags = [0, 9, 8, 0, 0, 0, 0];
        for ((command, tag), expected) in Mail::ALL.into_iter().zip(tags).zip(expected) {
            refused(before, (command, tag, 0), expected);
        }
    };
    // CLKC, KLOD of another tag, KUNL, FERS of the slot, FSTA, and P6's EHDL and RHPK.
    all(&small(&[Held(8)], None), [&[], &[], &[], &[10], &[], &[], &[]]);
    let waits: [&[u32]; 7] = [&[17], &[17], &[17], &[10, 17], &[], &[17], &[17]];
    all(&small(&[Held(8)], Some(Clear)), waits);
    all(&small(&[Held(8), Waiting(7)], None), waits);
    all(&small(&[Unsure(8)], None), [&[], &[18], &[18], &[10], &[], &[], &[]]);
    let both: [&[u32]; 7] = [&[17], &[17, 18], &[17, 18], &[10, 17], &[], &[17], &[17]];
    all(&small(&[Unsure(8)], Some(Load)), both);
    all(&small(&[Unsure(8), Waiting(7)], None), both);
    // No indicator fuse can be set.
    let mut stuck = small(&[], Some(Clear));
    stuck.drive.marks[4..6].fill(u32::MAX);
    refused(&stuck, (Mail::Fers, 0, 0), &[17, 15]);
}

/// 17 is FERS's "before any burn", on a partition that is no slot too; the direct commands and the
/// library's erasure are no mailbox commands.
#[test]
fn p5_17_is_for_the_mailbox_alone() {
    let mut lent = small(&[Waiting(8)], Some(Load));
    lent.drive.image[21] = 1; // Partition 1 is zeroizable.
    refused(&lent, (Mail::Fers, 0, 1), &[17]);
    let word = |command| match direct(&lent, command).0 {
        Answer::Word { word, .. } => word,
        other => panic!("{command:?}: {other:?}"),
    };
    assert_eq!(word(Command::Write { cell: 6, value: 3 }), 3);
    assert_eq!(word(Command::Zeroize { cell: 6 }), 0xFFFF_FFFF);
    assert_eq!(word(Command::Read { cell: 6 }), 0);
    let (erasure, after) = erase(&lent, Erase { partition: 1, cut: None });
    assert!(matches!(erasure, Erasure::Erased { short_pairs: 0, .. }));
    assert_eq!(after.cache, lent.cache);
}

/// "A cut or restart empties all places and drops an awaited reply." One that is refused or runs
/// uncut is no cut.
#[test]
fn p5_a_cut_or_restart_empties_all_places_and_drops_an_awaited_reply() {
    let mut lent = small(&[Waiting(8), Held(7), Unsure(9)], Some(Clear));
    lent.drive.image[21] = 1; // Partition 1 is zeroizable.
    assert_eq!(restart(&lent), Lent { cache: Cache::default(), ..lent.clone() });
    let cut = |partition, k| erase(&lent, Erase { partition, cut: Some(Cut { k, mask: 1 }) });
    for k in [0, 3] {
        assert_eq!(cut(1, k).1.cache, Cache::default(), "{k}");
    }
    let (uncut, left) = cut(1, 4);
    assert!(matches!(uncut, Erasure::Erased { .. }));
    assert_eq!(left.cache, lent.cache);
    assert_eq!(cut(0, 0), (Erasure::Refused { number: 10, burns: 0 }, lent.clone()));
}
