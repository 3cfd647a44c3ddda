//! Document 02, P1: why a drive offers no key. The documents' cases on the proved key block,
//! through its safe Rust functions and as C calls it; then generated drives, on which the reason
//! is the model's, and contradicts neither the map, nor the states, nor FSTA.

use checks::archive::Archive;
use checks::calls::commands::low_bits;
use checks::calls::{self, requests};
use checks::proved::Proved;
use checks::random::Random;
use checks::tally::Tally;
use checks::{drives, lent, maps, small};
use model::Reason::{AllErased, Available, Blank, NoSlot, Torn};
use model::{entry, why, Call, Cut, Drive, Image, KeyBlock, Lent, Mail, Reason, Request, Said};
use model::{State, Values, HARDWARE, SECRET, SLOT_FLAGS, ZEROIZABLE};
use sciambrunola::{flag, NO_SLOT};
use std::ops::Range;

const DRIVES: usize = 120_000;
/// Each outcome has to be met so often, or the generator has become trivial.
const LEAST: usize = 1_000;

/// A cell with every fuse set.
const ALL: u32 = u32::MAX;

type Answered = Result<Reason, u32>;

/// What the key block answers through its safe functions and as C calls it: both the same, and
/// nothing that is lent has changed.
fn asked(lent: &Lent) -> Answered {
    let [safe, c] = [&mut Proved as &mut dyn KeyBlock, &mut Archive::default()].map(|block| {
        let mut after = lent.clone();
        let said = block.answer(&mut after, &Call::Why);
        assert_eq!(after, *lent, "the call changes something");
        said
    });
    match (safe, c) {
        (Said::Reason(reason), Said::Reason(same)) if reason == same => reason,
        _ => panic!("the safe call says {safe:?}, C is told {c:?}"),
    }
}

/// The small drive after FERS of its slot, with these stuck fuses.
fn after_fers(marks: &[(usize, u32)]) -> Lent {
    let mut lent = small::stuck(marks);
    let said = Proved.answer(&mut lent, &Call::Mailbox(requests::fers(small::SLOT)));
    assert_eq!(said.refusal(), None);
    lent
}

/// The small drive after its slot's erasure was cut at burn 0, with so many low bits burned.
fn after_cut(low: u32) -> Lent {
    let mut lent = small::stuck(&[]);
    let said = small::erase(&mut lent, Some(Cut { k: 0, mask: low_bits(low) }));
    assert_eq!(said.refusal(), None);
    lent
}

/// The small drive with something changed. Its bound is at byte 4 of the map, the flags of its
/// slot at byte 13.
fn with(change: impl Fn(&mut Drive)) -> Lent {
    let mut lent = small::stuck(&[]);
    change(&mut lent.drive);
    lent
}

/// Two slots of three and of four pairs, bound 60: data, digest and indicator.
fn slots(first: [u32; 6], second: [u32; 8]) -> Lent {
    let entries = vec![entry(0, 6, HARDWARE, SLOT_FLAGS), entry(6, 8, HARDWARE, SLOT_FLAGS)];
    let image = Image { cells: 14, bound: 60, entries_at: 8, entries }.bytes();
    let cells = [&first[..], &second].concat();
    lent::of(Drive { image, cells, marks: vec![0; 14] })
}

/// A drive for each case, with what the documents say that is answered.
fn cases() -> Vec<(&'static str, Lent, Answered)> {
    let torn = |partition, cell, ones| Ok(Torn { partition, cell, ones });
    let second = |cells| slots([ALL; 6], cells);
    let programmed = [0, 0, 0, 1, 0, 0, 0, 0];
    let first_torn = slots([1, 0, ALL, ALL, ALL, ALL], programmed);
    let digest_short = slots([ALL, ALL, ALL, 7, ALL, ALL], programmed);
    let indicator_too = slots([ALL, ALL, ALL, 7, 0, 1], programmed);
    vec![
        ("the small drive", with(|_| ()), Ok(Available)),
        ("case 2", after_fers(&[]), Ok(AllErased)),
        ("case 3", after_fers(&[(1, 0x0F)]), Ok(AllErased)),
        ("case 4", after_fers(&[(1, 0x1F)]), torn(0, 0, 59)),
        ("case 5", after_fers(&[(5, 0x1F)]), Ok(AllErased)),
        ("cases 4 and 5", after_fers(&[(1, 0x1F), (5, 0x1F)]), torn(0, 0, 59)),
        ("case 6, no bit", after_cut(0), Ok(Available)),
        ("case 6, low 59 bits", after_cut(59), torn(0, 0, 1)),
        ("case 6, low 60 bits", after_cut(60), torn(0, 0, 1)),
        ("no fuse set", with(|drive| drive.cells[0] = 0), Ok(Blank { partition: 0 })),
        ("no slot", with(|drive| drive.image[13] = ZEROIZABLE | SECRET), Ok(NoSlot)),
        ("torn, then programmed", first_torn, torn(0, 0, 1)),
        ("digest short", digest_short, torn(0, 2, 35)),
        ("digest and indicator short", indicator_too, torn(0, 2, 35)),
        (
            "indicator short, programmed",
            slots([ALL, ALL, ALL, ALL, 1, 0], programmed),
            Ok(Available),
        ),
        ("erased, torn", second([ALL, ALL, ALL, ALL << 5, 0, 0, ALL, ALL]), torn(1, 8, 59)),
        ("erased, digest short", second([ALL, ALL, ALL, ALL, 1, 2, ALL, ALL]), torn(1, 10, 2)),
        ("erased, blank", second([0, 0, 0, 0, ALL, ALL, 0, 0]), Ok(Blank { partition: 1 })),
        ("erased, programmed", second(programmed), Ok(Available)),
        ("both erased", second([ALL; 8]), Ok(AllErased)),
        ("bound 32", with(|drive| drive.image[4] = 32), Err(1)),
        ("a cell too few", with(|drive| drive.cells.truncate(11)), Err(2)),
        ("a mark too many", with(|drive| drive.marks.push(0)), Err(2)),
        ("1 and 2", with(|drive| (drive.image[4], drive.marks) = (32, vec![])), Err(1)),
    ]
}

#[test]
fn each_case_is_answered_as_the_documents_say() {
    for (name, lent, expected) in cases() {
        assert_eq!(asked(&lent), expected, "{name}");
    }
}

/// What the calls of document 01 tell of a drive.
struct Told {
    /// The refusals of the states and of FSTA.
    refusals: [Option<u32>; 2],
    /// The slots in map order.
    slots: Vec<Slot>,
    /// The active slot's partition, and whether the HEK is available, by FSTA.
    active: [u32; 2],
}

/// A slot by its fields and its state.
struct Slot {
    partition: u32,
    /// Its cells but for the indicator, which is no pair that a reason names.
    cells: Range<u32>,
    bound: u32,
    state: u32,
}

impl Told {
    fn of(lent: &Lent) -> Told {
        let mut lent = lent.clone();
        let fsta = Call::Mailbox(Request::of(Mail::Fsta, &Values::default()));
        let [listing, reply] = [Call::States, fsta].map(|call| Proved.answer(&mut lent, &call));
        let partitions = if let Said::Listing([0, partitions]) = listing { partitions } else { 0 };
        let slot = |partition| match Proved.answer(&mut lent, &Call::Partition(partition)) {
            Said::Fields([0, _, _, bound, first, length, _, flags]) if flags & flag::SLOT != 0 => {
                let state = lent.states[partition as usize];
                Some(Slot { partition, cells: first..first + length - 2, bound, state })
            }
            _ => None,
        };
        let slots = (0..partitions).filter_map(slot).collect();
        let active = [3, 4].map(|field| small::response(&lent, 20)[field]);
        Told { refusals: [listing.refusal(), reply.refusal()], slots, active }
    }
}

/// Whether an answer contradicts nothing that the other calls tell.
fn agrees(answered: Answered, told: &Told) -> bool {
    let open = told.slots.iter().find(|slot| slot.state != State::Erased as u32);
    let is = |slot: &Slot, partition, state, available: bool| {
        (slot.partition, slot.state) == (partition, state as u32)
            && told.active == [partition, available.into()]
    };
    match (answered, open) {
        (Err(number), _) => told.refusals == [Some(number); 2],
        _ if told.refusals != [None; 2] => false,
        (Ok(NoSlot), None) => told.slots.is_empty() && told.active == [NO_SLOT, 0],
        (Ok(AllErased), None) => !told.slots.is_empty() && told.active == [NO_SLOT, 0],
        (Ok(Available), Some(slot)) => is(slot, slot.partition, State::Programmed, true),
        (Ok(Blank { partition }), Some(slot)) => is(slot, partition, State::Blank, false),
        (Ok(Torn { partition, cell, ones }), Some(slot)) => {
            let pair = slot.cells.contains(&cell) && cell % 2 == 0 && ones < slot.bound;
            pair && is(slot, partition, State::Torn, false)
        }
        _ => false,
    }
}

/// Most drives have a few cells; some are large, or have a bad map, wrong lengths, or both.
fn drive(random: &mut Random) -> Drive {
    let way = random.below(60);
    let image = match way {
        0 => maps::largest(random),
        1 => maps::good(random),
        _ => maps::compact(random),
    };
    let damaged = (2..=5).contains(&way);
    let bytes = if damaged { maps::damaged(random, image) } else { image.bytes() };
    let mut drive = drives::over(random, bytes);
    if (5..=8).contains(&way) {
        drives::damage_lengths(random, &mut drive);
    }
    drive
}

#[test]
fn the_reason_is_the_models_on_generated_drives_and_contradicts_no_other_call() {
    const SEED: u64 = 0x5EED_0001_0059_0060;
    let total = Tally::over(DRIVES, |tally, number| {
        let lent = lent::of(drive(&mut Random::numbered(SEED, number)));
        let answered = asked(&lent);
        assert_eq!(answered, why::why(&lent.drive), "drive {number}: {:X?}", lent.drive);
        assert!(agrees(answered, &Told::of(&lent)), "drive {number}, {answered:?}: {lent:X?}");
        tally.add([calls::came(&Call::Why, Said::Reason(answered))]);
    });
    let outcomes = calls::outcomes().into_iter().filter(|key| key.starts_with("why ")).collect();
    total.check((DRIVES, "drives"), outcomes, LEAST);
}

/// On the drive of each case the answers of all others are found out, but for another pair of
/// the same torn slot; of pairs are found out those that are none of the slot's, its indicator, or
/// not short.
#[test]
fn a_reason_that_contradicts_is_found_out() {
    let same = |one, other| match (one, other) {
        (Ok(Torn { partition: one, .. }), Ok(Torn { partition: other, .. })) => one == other,
        _ => one == other,
    };
    for (name, lent, right) in cases() {
        let told = Told::of(&lent);
        for (other, _, answered) in cases() {
            assert_eq!(agrees(answered, &told), same(right, answered), "{name}: {other}");
        }
    }
    let told = Told::of(&after_fers(&[(1, 0x1F)]));
    for (cell, ones) in [(0, 60), (1, 59), (4, 59), (6, 59)] {
        assert!(!agrees(Ok(Torn { partition: 0, cell, ones }), &told), "{cell}, {ones}");
    }
}
