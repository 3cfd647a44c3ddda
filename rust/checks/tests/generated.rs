//! The programs `status` and `why` against the model and against each other, over generated
//! inputs, and on the small drive, for which the table is document 01's; and `make_map` against
//! the model, over generated texts, and on the small drive's.

use checks::maps;
use checks::programs::{self, agree, map_made, printed, with_model};
use checks::random::Random;
use checks::runner::in_repository;
use checks::small::MAP_TEXT;
use checks::tally::Tally;
use checks::texts::Text;
use model::Drive;
use std::fs;

/// Generated inputs of a run, besides the cuts around the boundaries.
const INPUTS: usize = 20_000;
/// Generated texts of maps.
const TEXTS: usize = 12_000;
/// Drives that are cut at every length around every boundary.
const CUT_DRIVES: u64 = 40;
/// Each outcome has to be met so often, or the generator has become trivial.
const LEAST: usize = 100;

/// Good drives and a largest one, each cut around every boundary.
fn cuts() -> Vec<Vec<u8>> {
    let drive = |seed| {
        let map = if seed == 0 { maps::largest } else { maps::good };
        programs::of(&mut Random::new(seed), map)
    };
    (0..CUT_DRIVES).flat_map(|seed| programs::around_boundaries(&drive(seed))).collect()
}

#[test]
fn both_are_the_models_on_generated_inputs_of_every_outcome() {
    let mut total = with_model(INPUTS, programs::numbered);
    let cuts = cuts();
    total.merge(with_model(cuts.len(), |number| cuts[number].clone()));
    total.check((INPUTS, "inputs"), programs::possible(), LEAST);
}

#[test]
fn both_are_the_models_on_the_small_drive_cut_at_every_length() {
    let whole = Drive::small().status_input();
    let given = fs::read(in_repository("crates/status/stdin")).expect("the program's own input");
    let expected = "part cells state short\n0 6 programmed 3\n1 6 blank 3\nhek 0\n";
    assert_eq!((&whole, printed("status", &whole).as_str()), (&given, expected));
    assert_eq!(printed("why", &whole), "hek available\n");
    let lengths = whole.len() + 1;
    with_model(lengths, |length| whole[..length].to_vec());
}

#[test]
fn both_are_the_models_on_the_small_drive_with_any_bit_flipped() {
    let whole = Drive::small().status_input();
    let flipped = |bit: usize| {
        let mut input = whole.clone();
        input[bit / 8] ^= 1 << (bit % 8);
        input
    };
    with_model(8 * whole.len(), flipped);
}

#[test]
fn make_map_is_the_models_on_generated_texts_of_every_outcome() {
    let total = Tally::over(TEXTS, |tally, number| {
        let [image, told] = map_made(&[&Text::numbered(number).bytes]);
        let refused = String::from_utf8_lossy(&told).trim_end().to_string();
        tally.add([if image.is_empty() { refused } else { format!("{} bytes", image.len()) }]);
    });
    let lengths = (1..=16).map(|partitions| format!("{} bytes", 8 + 8 * partitions));
    let refusals = [16, 1].map(|number| format!("refused {number}"));
    total.check((TEXTS, "texts"), refusals.into_iter().chain(lengths).collect(), LEAST / 5);
}

#[test]
fn make_map_is_the_models_on_the_small_drives_text_cut_at_every_length_or_with_any_bit_flipped() {
    let given = fs::read(in_repository("crates/make_map/stdin")).expect("the program's own input");
    assert_eq!(String::from_utf8_lossy(&given), MAP_TEXT);
    (0..=given.len()).for_each(|length| drop(map_made(&[&given[..length]])));
    for bit in 0..8 * given.len() {
        let mut flipped = given.clone();
        flipped[bit / 8] ^= 1 << (bit % 8);
        map_made(&[&flipped]);
    }
}

/// What holds of every output above can fail.
#[test]
fn a_table_and_a_line_that_tell_different_things_are_found() {
    let torn = "hek none: the active slot, partition 1, is torn: the pair at cell 6 has 59 of 64 \
                fuses set, at least 60 are needed\n";
    let table =
        |state, hek| format!("part cells state short\n0 6 erased 0\n1 6 {state} 1\nhek {hek}\n");
    assert!(agree(&table("torn", "none"), torn) && agree("refused 2\n", "refused 2\n"));
    assert!(agree(&table("programmed", "1"), "hek available\n"));
    let rows = [
        (table("blank", "none"), torn),
        (table("programmed", "1"), torn),
        (table("torn", "none"), "hek available\n"),
        (table("programmed", "1"), "hek none: every slot is erased\n"),
        (table("torn", "none").replace("1 6", "2 6"), torn),
        (table("torn", "none"), "refused 1\n"),
        ("refused 1\n".to_string(), "refused 2\n"),
        ("refused 1\n".to_string(), "hek none: the map has no slot\n"),
    ];
    for (table, line) in rows {
        assert!(!agree(&table, line), "{table}{line}");
    }
}
