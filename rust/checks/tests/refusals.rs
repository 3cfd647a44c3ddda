//! Document 01, "A status program": its refusals, in the document's order, which are those of
//! `why` too.
//!
//! The inputs are pieces laid end to end; each piece is named after what is wrong with it.

use checks::programs::both;
use checks::small::MAP;

/// The small drive's map with P 0: it breaks the rules, whole or cut.
const BAD_MAP: &[u8] = &{
    let mut map = *MAP;
    map[0] = 0;
    map
};
/// The small drive's twelve cells or marks are zeros here.
const ZEROS: &[u8] = &[0; 1024];
/// The length of MAP and of BAD_MAP.
const LENGTH: &[u8] = &[24, 0];
/// The bytes of the small drive's cells, and of its marks.
const RUN: usize = 48;

const TABLE: &str = "part cells state short\n0 6 blank 3\n1 6 blank 3\nhek none\n";
const LINE: &str = "hek none: the active slot, partition 0, is blank: it holds no seed\n";

/// Both programs print the same.
fn check(cases: &[(&str, &[&[u8]], &str)]) {
    for (name, pieces, expected) in cases {
        assert_eq!(both(&pieces.concat()), [*expected; 2], "{name}");
    }
}

#[test]
fn an_input_with_nothing_wrong_is_not_refused() {
    assert_eq!(both(&[LENGTH, MAP, &ZEROS[..2 * RUN]].concat()), [TABLE, LINE]);
}

#[test]
fn first_2_when_the_length_is_cut_short() {
    check(&[
        ("no byte", &[], "refused 2\n"),
        ("one byte", &[&LENGTH[..1]], "refused 2\n"),
        ("one byte, 0", &[&[0]], "refused 2\n"),
        ("one byte of a length over 256", &[&[0xFF]], "refused 2\n"),
    ]);
}

#[test]
fn then_1_when_the_length_is_over_256() {
    check(&[
        ("257 and nothing", &[&[1, 1]], "refused 1\n"),
        ("257 and a map cut short", &[&[1, 1], &ZEROS[..256]], "refused 1\n"),
        ("257 and as many bytes", &[&[1, 1], &ZEROS[..257]], "refused 1\n"),
        ("257 and a good map", &[&[1, 1], MAP, &ZEROS[..233 + 2 * RUN]], "refused 1\n"),
        ("65,535 and nothing", &[&[0xFF, 0xFF]], "refused 1\n"),
        ("the small drive's length, high byte first", &[&[0, 24], MAP], "refused 1\n"),
    ]);
}

#[test]
fn then_2_when_the_map_is_cut_short() {
    check(&[
        ("256 and nothing", &[&[0, 1]], "refused 2\n"),
        ("256 and a byte too few", &[&[0, 1], &ZEROS[..255]], "refused 2\n"),
        ("256 and a good map", &[&[0, 1], MAP, &ZEROS[..2 * RUN]], "refused 2\n"),
        ("1 and nothing", &[&[1, 0]], "refused 2\n"),
        ("24 and nothing", &[LENGTH], "refused 2\n"),
        ("a byte too few", &[LENGTH, &MAP[..23]], "refused 2\n"),
        ("a bad map, a byte too few", &[LENGTH, &BAD_MAP[..23]], "refused 2\n"),
        ("a bad header and no more", &[LENGTH, &BAD_MAP[..8]], "refused 2\n"),
    ]);
}

#[test]
fn then_1_when_the_map_is_bad() {
    check(&[
        ("length 0", &[&[0, 0]], "refused 1\n"),
        ("length 0 before a good map", &[&[0, 0], MAP, &ZEROS[..2 * RUN]], "refused 1\n"),
        ("length 7", &[&[7, 0], &MAP[..7]], "refused 1\n"),
        ("length 8, the header alone", &[&[8, 0], &MAP[..8]], "refused 1\n"),
        ("256 zeros", &[&[0, 1], &ZEROS[..256]], "refused 1\n"),
        ("length one less than the map", &[&[23, 0], MAP, &ZEROS[..2 * RUN]], "refused 1\n"),
        ("length one more than the map", &[&[25, 0], MAP, &ZEROS[..2 * RUN]], "refused 1\n"),
        ("bad, all else right", &[LENGTH, BAD_MAP, &ZEROS[..2 * RUN]], "refused 1\n"),
        ("bad, no cells", &[LENGTH, BAD_MAP], "refused 1\n"),
        ("bad, cells cut short", &[LENGTH, BAD_MAP, &ZEROS[..RUN - 1]], "refused 1\n"),
        ("bad, marks cut short", &[LENGTH, BAD_MAP, &ZEROS[..2 * RUN - 1]], "refused 1\n"),
        ("bad, a byte too many", &[LENGTH, BAD_MAP, &ZEROS[..2 * RUN + 1]], "refused 1\n"),
    ]);
}

#[test]
fn last_2_when_cells_and_marks_are_cut_short_or_anything_follows() {
    check(&[
        ("no cells", &[LENGTH, MAP], "refused 2\n"),
        ("one byte of a cell", &[LENGTH, MAP, &ZEROS[..1]], "refused 2\n"),
        ("the last cell cut short", &[LENGTH, MAP, &ZEROS[..RUN - 1]], "refused 2\n"),
        ("no marks", &[LENGTH, MAP, &ZEROS[..RUN]], "refused 2\n"),
        ("one byte of a mark", &[LENGTH, MAP, &ZEROS[..RUN + 1]], "refused 2\n"),
        ("the last mark missing", &[LENGTH, MAP, &ZEROS[..2 * RUN - 4]], "refused 2\n"),
        ("the last mark cut short", &[LENGTH, MAP, &ZEROS[..2 * RUN - 1]], "refused 2\n"),
        ("a byte too many", &[LENGTH, MAP, &ZEROS[..2 * RUN + 1]], "refused 2\n"),
        ("a line feed too many", &[LENGTH, MAP, &ZEROS[..2 * RUN], b"\n"], "refused 2\n"),
        ("a mark too many", &[LENGTH, MAP, &ZEROS[..2 * RUN + 4]], "refused 2\n"),
        ("many bytes too many", &[LENGTH, MAP, &ZEROS[..1024]], "refused 2\n"),
    ]);
}
