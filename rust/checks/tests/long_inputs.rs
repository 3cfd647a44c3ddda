//! Document 01, "A status program": inputs that the program, or `why`, cannot read in
//! one piece, or not whole; and numbers of as many digits as there can be. The same of
//! `make_map` and its texts (document 02, P2).

use checks::programs::{map_made, printed};
use checks::runner::{program, run};
use checks::small::MAP_TEXT;
use checks::texts;
use model::{entry, Drive, Image, HARDWARE, SLOT_FLAGS};

/// One partition of all 2,048 cells, not zeroizable, every fuse 0: the longest
/// drive for its map of 16 bytes.
const MAP: &[u8] = &[1, 0, 0, 8, 60, 0, 8, 0, 0, 0, 0, 8, 0, 0, 0, 0];
/// The programs, and what they print for it.
const PRINTED: [(&str, &str); 2] = [
    ("status", "part cells state short\n0 2048 blank 1024\nhek none\n"),
    ("why", "hek none: the map has no slot\n"),
];

/// The drive's input, and `more` bytes behind it.
fn input(more: usize) -> Vec<u8> {
    [&[16, 0], MAP, &vec![0; 8 * 2048 + more]].concat()
}

#[test]
fn counts_of_four_digits_are_printed_whole() {
    for (name, expected) in PRINTED {
        assert_eq!(printed(name, &input(0)), expected);
    }
}

/// Sixteen slots in 2,048 cells under the highest bound, all ones but for a fuse of the last
/// slot's digest, the pair at cell 2,044.
#[test]
fn the_longest_line_of_why_is_printed_whole() {
    let entries = (0..16).map(|number| entry(128 * number, 128, HARDWARE, SLOT_FLAGS)).collect();
    let image = Image { cells: 2048, bound: 64, entries_at: 8, entries }.bytes();
    let (mut cells, marks) = (vec![u32::MAX; 2048], vec![0; 2048]);
    cells[2045] = u32::MAX >> 1;
    let expected = "hek none: the active slot, partition 15, is torn: the pair at cell 2044 has \
                    63 of 64 fuses set, at least 64 are needed\n";
    assert_eq!(printed("why", &Drive { image, cells, marks }.status_input()), expected);
}

/// 65,536 is the programs' own buffer.
#[test]
fn anything_behind_the_longest_drive_is_refused_with_2() {
    let whole = input(0).len();
    for length in [whole + 1, 65_535, 65_536, 65_537, 200_000] {
        for (name, _) in PRINTED {
            let printed = printed(name, &input(length - whole));
            assert_eq!(printed, "refused 2\n", "{name}, {length} bytes");
        }
    }
}

/// Pieces of so many bytes; the last ones cut the map in two.
#[test]
fn input_that_arrives_in_pieces_is_the_same_input() {
    let input = input(0);
    for (first, size) in [(1000, 1000), (4096, 4096), (16_401, 16_401), (17, 8192)] {
        let mut pieces = vec![&input[..first]];
        pieces.extend(input[first..].chunks(size));
        for (name, expected) in PRINTED {
            let printed = run(&program(name), &pieces);
            let printed = String::from_utf8_lossy(&printed);
            assert_eq!(printed, expected, "{name}: {first}, then pieces of {size}");
        }
    }
}

/// The longest text of 16 partitions has 396 bytes and the form, but no map has its numbers.
#[test]
fn the_longest_texts_of_sixteen_partitions_are_read_whole() {
    let longest = "65535 65535\n".to_string() + &"65535 65535 65535 65535\n".repeat(16);
    assert_eq!((longest.len(), refused(&longest)), (396, "refused 1\n".to_string()));
    let entries = (0..16).map(|number| entry(1024 + 64 * number, 64, HARDWARE, SLOT_FLAGS));
    let image = Image { cells: 2048, bound: 60, entries_at: 8, entries: entries.collect() };
    assert_eq!(map_made(&[&texts::spelled(&image)]), [image.bytes(), vec![]]);
}

/// What `make_map` tells of a text, of which it writes nothing.
fn refused(text: &str) -> String {
    let [image, told] = map_made(&[text.as_bytes()]);
    assert_eq!(image, [], "{} bytes", text.len());
    String::from_utf8(told).expect("it is a line")
}

/// Its buffer is that of 16 partitions, so that a text of more lines is 16, of the form or not.
#[test]
fn anything_behind_the_longest_text_is_refused_with_16() {
    let lines = String::from_utf8(texts::spelled(&texts::row(20_000))).expect("a text");
    for length in [397, 4096, 65_535, 65_536, 65_537, 131_072, 200_000] {
        let end = lines[..length].rfind('\n').expect("a line's end") + 1;
        let digits = "1".repeat(length);
        let spaces = MAP_TEXT.to_string() + &" ".repeat(length);
        let feeds = MAP_TEXT.to_string() + &"\n".repeat(length);
        for text in [&lines[..end], &lines[..length], &digits, &spaces, &feeds] {
            assert_eq!(refused(text), "refused 16\n", "{length} bytes");
        }
    }
}

/// A byte at a time, and in two pieces that part a number or a line.
#[test]
fn a_text_that_arrives_in_pieces_is_the_same_text() {
    let text = MAP_TEXT.as_bytes();
    let whole = map_made(&[text]);
    let single: Vec<&[u8]> = text.chunks(1).collect();
    assert_eq!(map_made(&single), whole);
    for at in 1..text.len() {
        assert_eq!(map_made(&[&text[..at], &text[at..]]), whole, "{at}");
    }
}
