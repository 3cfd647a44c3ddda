//! Document 01, "The map of the fuses", with P7 of document 02: one broken image for each rule,
//! and good images at the edges of the rules.

use checks::drives;
use checks::programs::{printed, PROGRAMS};
use checks::random::Random;
use model::map::{broken_rules, Rule};
use model::{entry, Image, SLOT_FLAGS};
use model::{HARDWARE, LIFE_CYCLE, OLDER_GUIDE, SECRET, SLOT, SOFTWARE, ZEROIZABLE};
use Rule::*;

/// A name, an image, and the rules that it breaks: a good image breaks none.
type Case = (&'static str, Vec<u8>, &'static [Rule]);

/// The good image that the others differ from: a slot and a software partition,
/// with two cells free behind each and four bytes before the entries.
fn base() -> Image {
    let entries = vec![entry(0, 6, HARDWARE, SLOT_FLAGS), entry(8, 6, SOFTWARE, 0)];
    Image { cells: 16, bound: 60, entries_at: 12, entries }
}

/// The base with its fields changed.
fn with(change: impl Fn(&mut Image)) -> Vec<u8> {
    let mut image = base();
    change(&mut image);
    image.bytes()
}

/// The base with its bytes changed.
fn bytes(change: impl Fn(&mut Vec<u8>)) -> Vec<u8> {
    let mut bytes = base().bytes();
    change(&mut bytes);
    bytes
}

/// The base with its last entry of this kind and with these flags.
fn last(kind: u8, flags: u8) -> Vec<u8> {
    with(|map| map.entries[1] = entry(8, 6, kind, flags))
}

/// So many partitions of four cells each, one behind the other, in C cells.
fn row(count: u16, cells: u16, entries_at: u16) -> Vec<u8> {
    let entries = (0..count).map(|number| entry(4 * number, 4, HARDWARE, 0)).collect();
    Image { cells, bound: 60, entries_at, entries }.bytes()
}

/// One partition in C cells.
fn alone(cells: u16, (first, n, kind, flags): (u16, u16, u8, u8)) -> Vec<u8> {
    let entries = vec![entry(first, n, kind, flags)];
    Image { cells, bound: 60, entries_at: 8, entries }.bytes()
}

fn headers() -> Vec<Case> {
    vec![
        ("P 0", row(0, 4, 8), &[PartitionCount]),
        ("P 17", row(17, 68, 8), &[PartitionCount]),
        // No partition fits into three cells, so it must end past C as well.
        ("C 3", row(1, 3, 8), &[CellCount, EndByC]),
        ("C 2,049", with(|map| map.cells = 2049), &[CellCount]),
        ("B 32", with(|map| map.bound = 32), &[Bound]),
        ("B 65", with(|map| map.bound = 65), &[Bound]),
        // The first entry begins on the high byte of E: its first cell is 0,
        // so that this byte is 0 for both.
        ("E 7", with(|map| map.entries_at = 7), &[EntriesOffset]),
        ("E 129", with(|map| map.entries_at = 129), &[EntriesOffset]),
        ("first filler byte", bytes(|map| map[8] = 1), &[Filler]),
        ("last filler byte", bytes(|map| map[11] = 0x80), &[Filler]),
        ("a byte too many", bytes(|map| map.push(0)), &[Length]),
        ("a byte too few", bytes(|map| map.truncate(map.len() - 1)), &[Length]),
        ("no header", bytes(|map| map.truncate(7)), &[Length]),
        ("no byte at all", vec![], &[Length]),
        ("the base", base().bytes(), &[]),
        ("P 1 and C 4", row(1, 4, 8), &[]),
        ("P 16", row(16, 64, 8), &[]),
        ("P 16 and E 128", row(16, 64, 128), &[]),
        ("C 2,048 and gaps", with(|map| map.cells = 2048), &[]),
        ("odd C", with(|map| map.cells = 15), &[]),
        ("B 33", with(|map| map.bound = 33), &[]),
        ("B 64", with(|map| map.bound = 64), &[]),
        ("E 8", with(|map| map.entries_at = 8), &[]),
        ("E 9", with(|map| map.entries_at = 9), &[]),
        ("E 127", with(|map| map.entries_at = 127), &[]),
        ("E 128", with(|map| map.entries_at = 128), &[]),
    ]
}

fn places() -> Vec<Case> {
    let set = |first, n, flags| with(|map| map.entries[1] = entry(first, n, SOFTWARE, flags));
    vec![
        ("odd first", with(|map| map.entries[0].first = 1), &[FirstEven]),
        ("odd first, last entry", set(9, 6, 0), &[FirstEven]),
        ("odd n", with(|map| map.entries[0].n = 7), &[CellsEven]),
        ("odd n, last entry", set(8, 7, 0), &[CellsEven]),
        ("n 0", set(8, 0, 0), &[AtLeastFour]),
        ("n 2", set(8, 2, 0), &[AtLeastFour]),
        ("n 4 zeroizable", with(|map| map.entries[0].n = 4), &[AtLeastSixIfZeroizable]),
        ("n 4 zeroizable software", set(8, 4, ZEROIZABLE), &[AtLeastSixIfZeroizable]),
        ("overlap by two", set(4, 6, 0), &[NoOverlap]),
        ("the same first cell", set(0, 6, 0), &[Ascending, NoOverlap]),
        ("descending", with(|map| map.entries.reverse()), &[Ascending]),
        ("end past C by one", with(|map| map.cells = 13), &[EndByC]),
        ("end past C by two", set(12, 6, 0), &[EndByC]),
        // First and n together are 2 in 16 bits.
        ("end past C and past 16 bits", set(0xFFFC, 6, 0), &[EndByC]),
        ("last entry ends at C", with(|map| map.cells = 14), &[]),
        ("no gap", set(6, 6, 0), &[]),
        ("gap before the first entry", alone(16, (4, 6, SOFTWARE, ZEROIZABLE)), &[]),
        ("C 2,048 in one partition", alone(2048, (0, 2048, HARDWARE, SLOT_FLAGS)), &[]),
        ("the last cells of 2,048", alone(2048, (2044, 4, LIFE_CYCLE, 0)), &[]),
        ("n 4 not zeroizable", set(8, 4, 0), &[]),
        ("n 6 zeroizable software", set(8, 6, ZEROIZABLE), &[]),
    ]
}

fn kinds() -> Vec<Case> {
    vec![
        ("kind 3", last(3, 0), &[Kind]),
        ("kind 128", last(128, 0), &[Kind]),
        ("flag 16", last(HARDWARE, 16), &[HigherFlags]),
        ("flag 32", last(HARDWARE, 32), &[HigherFlags]),
        ("flag 64", last(HARDWARE, 64), &[HigherFlags]),
        ("flag 128", last(HARDWARE, 128), &[HigherFlags]),
        ("life cycle zeroizable", last(LIFE_CYCLE, ZEROIZABLE), &[LifeCycleNotZeroizable]),
        ("secret in kind 1", last(SOFTWARE, SECRET), &[SecretIsHardware]),
        ("secret in kind 2", last(LIFE_CYCLE, SECRET), &[SecretIsHardware]),
        ("slot without secret", last(HARDWARE, SLOT | ZEROIZABLE), &[SlotIsSecret]),
        ("slot without zeroizable", last(HARDWARE, SLOT | SECRET), &[SlotIsZeroizable]),
        ("software slot without secret", last(SOFTWARE, SLOT | ZEROIZABLE), &[SlotIsSecret]),
        ("flag 8 alone", last(HARDWARE, OLDER_GUIDE), &[OlderGuideIsZeroizable]),
        ("flag 8 alone in kind 1", last(SOFTWARE, OLDER_GUIDE), &[OlderGuideIsZeroizable]),
        ("flag 8 alone in kind 2", last(LIFE_CYCLE, OLDER_GUIDE), &[OlderGuideIsZeroizable]),
        (
            "flag 8 with 1 in kind 2",
            last(LIFE_CYCLE, OLDER_GUIDE | ZEROIZABLE),
            &[LifeCycleNotZeroizable],
        ),
        ("flag 8 with 2", last(HARDWARE, OLDER_GUIDE | SECRET), &[OlderGuideIsZeroizable]),
        ("byte 6 of entry 0", with(|map| map.entries[0].zeros[0] = 1), &[EntryZeros]),
        ("byte 7 of entry 0", with(|map| map.entries[0].zeros[1] = 1), &[EntryZeros]),
        ("byte 6 of entry 1", with(|map| map.entries[1].zeros[0] = 128), &[EntryZeros]),
        ("byte 7 of entry 1", with(|map| map.entries[1].zeros[1] = 128), &[EntryZeros]),
        ("hardware without flags", last(HARDWARE, 0), &[]),
        ("hardware zeroizable", last(HARDWARE, ZEROIZABLE), &[]),
        ("hardware secret", last(HARDWARE, SECRET), &[]),
        ("hardware zeroizable and secret", last(HARDWARE, ZEROIZABLE | SECRET), &[]),
        ("a second slot", last(HARDWARE, SLOT_FLAGS), &[]),
        ("flag 8 with 1", last(HARDWARE, OLDER_GUIDE | ZEROIZABLE), &[]),
        ("flag 8 with 1 in kind 1", last(SOFTWARE, OLDER_GUIDE | ZEROIZABLE), &[]),
        ("flag 8 with 1 and 2", last(HARDWARE, OLDER_GUIDE | ZEROIZABLE | SECRET), &[]),
        ("flag 8 with 7", last(HARDWARE, OLDER_GUIDE | SLOT_FLAGS), &[]),
        ("life cycle", last(LIFE_CYCLE, 0), &[]),
    ]
}

fn cases() -> Vec<Case> {
    [headers(), places(), kinds()].concat()
}

#[test]
fn each_image_breaks_the_named_rules_and_no_other() {
    for (name, image, rules) in cases() {
        assert_eq!(broken_rules(&image), rules, "{name}");
    }
}

#[test]
fn every_rule_is_broken_alone_by_some_image() {
    let cases = cases();
    // The one rule that cannot be broken alone is C below 4; C 2,049 stands in.
    for rule in Rule::ALL {
        assert!(cases.iter().any(|(_, _, rules)| *rules == [rule]), "{rule:?}");
    }
}

/// Each input has exactly the cells and marks that its map's C asks for.
#[test]
fn programs_refuse_each_broken_image_with_1_and_print_what_the_model_does_for_a_good_one() {
    for (name, image, rules) in cases() {
        let input = drives::over(&mut Random::new(59), image).status_input();
        for ((program, model), accepted) in PROGRAMS.into_iter().zip(["part cells ", "hek "]) {
            let printed = printed(program, &input);
            let begins = if rules.is_empty() { accepted } else { "refused 1\n" };
            assert!(printed.starts_with(begins), "{program}, {name}: {printed}");
            assert_eq!(printed.as_bytes(), model(&input), "{program}, {name}: {printed}");
        }
    }
}
