//! The names of the C header and of the safe Rust calls have the documents' numbers. The kinds of
//! answers and of places, the states, the reasons, the orders, the engine's replies and the words
//! of a context have none there; theirs are the archive's, which `callers`, `cache_places` and
//! `calls` see in its answers.

use checks::runner::{compiled, in_repository, printed};
use sciambrunola::{code, flag, kind, refusal};
use std::fs;
use std::path::Path;
use std::process::Command;

/// Every name of the header after `SCI_`, in its order, with its number in hexadecimal.
const HEADER: &str = "\
VERSION C
PLACES 10, HANDLES 3, CONTEXT_WORDS 26, BLOCK_BYTES 80, LEAST_RESPONSE 28
PARTITIONS 10, LONGEST_IMAGE 88
KIND_HARDWARE 0, KIND_SOFTWARE 1, KIND_LIFE_CYCLE 2
FLAG_ZEROIZABLE 1, FLAG_SECRET 2, FLAG_SLOT 4, FLAG_OLDER_GUIDE 8
REFUSAL_MAP 1, REFUSAL_LENGTHS 2, REFUSAL_CODE 3, REFUSAL_REQUEST_LENGTH 4
REFUSAL_CHKSUM 5, REFUSAL_RESERVED 6, REFUSAL_NOT_FOUND 7, REFUSAL_FORBIDDEN 8
REFUSAL_CLEARS_FUSE 9, REFUSAL_KEYS_HELD A, REFUSAL_NO_HEK B, REFUSAL_TAG_HELD C
REFUSAL_NO_PLACE D, REFUSAL_TAG_NOT_HELD E, REFUSAL_INDICATOR_UNSET F
REFUSAL_TEXT 10, REFUSAL_AWAITING 11, REFUSAL_UNSURE 12, REFUSAL_NOT_AWAITED 13
REFUSAL_NO_HANDLE 14, REFUSAL_NUMBERS_USED_UP 15
STATE_ERASED 0, STATE_TORN 1, STATE_BLANK 2, STATE_PROGRAMMED 3
REASON_AVAILABLE 0, REASON_NO_SLOT 1, REASON_ALL_ERASED 2
REASON_BLANK 3, REASON_TORN 4, REASON_REFUSED 5
PLACE_EMPTY 0, PLACE_HELD 1, PLACE_WAITING 2, PLACE_UNSURE 3
WORD 0, DONE 1, WITHHELD 2, REFUSED 3
ENDED 0, CUT 1, ERASURE_REFUSED 2
NO_CELL FFFFFFFF, NO_SLOT FFFFFFFF
ORDER_NONE 0, ORDER_CLEAR 1, ORDER_LOAD 2, ORDER_UNLOAD 3
ENGINE_DONE 1, ENGINE_TIMED_OUT 2, ENGINE_FAILED 3
CLKC 434C4B43, KLOD 4B4C4F44, KUNL 4B554E4C, FERS 46455253, FSTA 46535441
EHDL 4548444C, RHPK 5248504B
";

/// Every name that the header gives a number is printed by a C program.
#[test]
fn names_of_the_header_have_the_documents_numbers_and_none_is_left_out() {
    let header = fs::read_to_string(in_repository("include/sciambrunola.h"));
    let header = header.expect("the header can be read");
    let lines = header.lines().filter_map(|line| line.strip_prefix("#define SCI_"));
    let lines = lines.filter(|line| *line != "ANSWER" && !line.starts_with("ANSWER "));
    let print = |line: &str| {
        let name = line.split(' ').next().unwrap_or(line);
        format!("printf(\"{name} %\" PRIX64 \"\\n\", (uint64_t)(SCI_{name}));\n")
    };
    let prints: String = lines.map(print).collect();
    let includes = "#include \"sciambrunola.h\"\n#include <inttypes.h>\n#include <stdio.h>\n";
    let source = format!("{includes}int main(void)\n{{\n{prints}return 0;\n}}\n");
    let path = concat!(env!("CARGO_TARGET_TMPDIR"), "/names.c");
    fs::write(path, source).expect("the program can be written");
    let program = compiled(&[path], Path::new(env!("CARGO_TARGET_TMPDIR")));
    let expected: Vec<&str> = HEADER.lines().flat_map(|line| line.split(", ")).collect();
    assert_eq!(printed(&mut Command::new(program)).lines().collect::<Vec<_>>(), expected);
}

#[test]
fn names_of_the_safe_calls_have_the_documents_numbers() {
    assert_eq!([refusal::MAP, refusal::LENGTHS, refusal::CODE], [1, 2, 3]);
    assert_eq!([refusal::REQUEST_LENGTH, refusal::CHKSUM, refusal::RESERVED], [4, 5, 6]);
    assert_eq!([refusal::NOT_FOUND, refusal::FORBIDDEN, refusal::CLEARS_FUSE], [7, 8, 9]);
    assert_eq!([refusal::KEYS_HELD, refusal::NO_HEK, refusal::TAG_HELD], [10, 11, 12]);
    let last = [refusal::NO_PLACE, refusal::TAG_NOT_HELD, refusal::INDICATOR_UNSET, refusal::TEXT];
    assert_eq!(last, [13, 14, 15, 16]);
    assert_eq!([refusal::AWAITING, refusal::UNSURE, refusal::NOT_AWAITED], [17, 18, 19]);
    assert_eq!([refusal::NO_HANDLE, refusal::NUMBERS_USED_UP], [20, 21]);
    let codes = [code::CLKC, code::KLOD, code::KUNL, code::FERS, code::FSTA];
    assert_eq!(codes, [0x434C_4B43, 0x4B4C_4F44, 0x4B55_4E4C, 0x4645_5253, 0x4653_5441]);
    assert_eq!([code::EHDL, code::RHPK], [0x4548_444C, 0x5248_504B]);
    assert_eq!([kind::HARDWARE, kind::SOFTWARE, kind::LIFE_CYCLE], [0, 1, 2]);
    let flags = [flag::ZEROIZABLE, flag::SECRET, flag::SLOT, flag::OLDER_GUIDE];
    assert_eq!(flags, [1, 2, 4, 8]);
    assert_eq!([sciambrunola::BLOCK_BYTES, sciambrunola::LEAST_RESPONSE], [128, 40]);
    assert_eq!([sciambrunola::PLACES, sciambrunola::PARTITIONS], [16, 16]);
    assert_eq!([sciambrunola::HANDLES, sciambrunola::LONGEST_IMAGE], [3, 136]);
    let bytes = std::mem::size_of::<sciambrunola::Context>();
    assert_eq!([sciambrunola::CONTEXT_WORDS, bytes], [38, 304]);
    assert_eq!([sciambrunola::NO_CELL, sciambrunola::NO_SLOT], [0xFFFF_FFFF; 2]);
    assert!(HEADER.starts_with(&format!("VERSION {:X}\n", sciambrunola::VERSION)));
    let changes = fs::read_to_string(in_repository("docs/CHANGES.md")).expect("it can be read");
    let last = changes.lines().last().expect("a row for each version");
    assert!(last.starts_with(&format!("| {} |", sciambrunola::VERSION)), "{last}");
}

/// The archive is lent a context by its address alone, so its own number of words is
/// read where it is written.
#[test]
fn a_context_has_the_words_that_the_archive_asks_for() {
    let source = fs::read_to_string(in_repository("crates/context/src/lib.rt"));
    let source = source.expect("the source can be read");
    let number = |line: &str| {
        line.strip_prefix("pub const WORDS: usize = ")?.strip_suffix(';')?.parse().ok()
    };
    assert_eq!(source.lines().find_map(number), Some(sciambrunola::CONTEXT_WORDS));
}
