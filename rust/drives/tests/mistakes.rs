//! What is wrong with a text, and in which line.

use drives::Drive;

/// The forms of the map's lines.
const FIRST: &str = "wanted the map's first line, `C B`";
const PARTITION: &str = "wanted a partition, `first cells kind flags`";
const NUMBERS: &str = "decimal numbers up to 65535, without leading zeros and with single spaces";

/// The rules of the first.
const FIRST_RULES: &str =
    "the map breaks a rule: C, the cells, is 4 to 2048, and B, the bound, is 33 to 64";

/// Each of the texts has the mistake, told in these words.
fn check(expected: &str, texts: &[&str]) {
    for text in texts {
        assert_eq!(Drive::read(text).expect_err(text).to_string(), expected, "{text:?}");
    }
}

/// The same for the fourth line of a text: the drive has 12 cells, and a value
/// for cell 3.
fn check_fourth(expected: &str, lines: &[&str]) {
    for line in lines {
        let text = format!("12 60\n0 6 0 7\ncell 3 1\n{line}\ncell 0 not read\n");
        check(&format!("line 4: {expected}"), &[&text]);
    }
}

/// The same for a line of the map that has not its form: the first, or a partition behind a
/// comment, with other lines behind it.
fn check_form(first: &[&str], partition: &[&str]) {
    for line in first {
        let text = format!("{line}\n0 6 0 7\ncell 0 1\n");
        check(&format!("line 1: {FIRST}, {NUMBERS}, not {line:?}"), &[&text]);
    }
    for line in partition {
        let text = format!("12 60\n\n# the slot\n{line}\n6 6 1 0\ncell 0 1\n");
        check(&format!("line 4: {PARTITION}, {NUMBERS}, not {line:?}"), &[&text]);
    }
}

#[test]
fn lines_of_the_map_have_their_forms() {
    check(&format!("line 1: {FIRST}"), &[""]);
    check(&format!("line 3: {FIRST}"), &["# nothing\n\n"]);
    check_form(
        &["cell 0 1", "12", "12 60 8", "12  60", " 12 60", "12 60 ", "12\t60", "60, 12", "C 60"],
        &["0 6 0", "0 6 0 7 0", "0 6  0 7", "0 6 0 7 ", "0 6 0 7 # a slot", "0 6 0 7,"],
    );
    check_form(&["012 60", "+12 60", "12 065"], &["00 6 0 7", "0 -6 0 7", "0 6 0x0 7", "0 6 0 07"]);
    check_form(&["65536 60", "12 65536"], &["65536 6 0 7", "0 99999999999999999999 0 7"]);
}

#[test]
fn lines_of_the_fuses_have_theirs() {
    let fuses = "wanted `cell CELLS VALUE` or `mark CELLS VALUE`";
    check_fourth(&format!("{fuses}, not \"cells\""), &["cells 0-5 FFFFFFFF"]);
    check_fourth(&format!("{fuses}, not \"Mark\""), &["Mark 0 1"]);
    let lines = ["cell 0", "cell 0 1 # the seed", "cell  0 1", " cell 0 1", " ", "6 6 1 0"];
    check_fourth(&format!("{fuses}, with single spaces"), &lines);
    let line_feed = "wanted a line feed at the end of the last line";
    check(&format!("line 1: {line_feed}"), &["12 60"]);
    check(&format!("line 3: {line_feed}"), &["12 60\n0 6 0 7\ncell 0 FFF"]);
}

#[test]
fn a_byte_order_mark_and_the_line_ends_of_windows_are_named() {
    let mark = "line 1: the text begins with a byte order mark, the bytes EF BB BF: save it as \
                UTF-8 without one";
    check(mark, &["\u{FEFF}12 60\n0 6 0 7\n", "\u{FEFF}# a drive\r\n12 60\r\n", "\u{FEFF}"]);
    let ends = "the line ends with a carriage return, as lines do on Windows: save the text with \
                line feeds alone";
    check(&format!("line 1: {ends}"), &["12 60\r\n0 6 0 7\r\n", "# a drive\r\n12 60\r\n", "\r\n"]);
    check(&format!("line 2: {ends}"), &["12 60\n0 6 0 7\r\ncell 0 1\n", "12 60\n0 6 0 7\r\n6 6"]);
    check(&format!("line 3: {ends}"), &["12 60\n0 6 0 7\ncell 0 1\r\n"]);
    // Also of a last line without its line feed.
    check(&format!("line 2: {ends}"), &["12 60\n0 6 0 7\r", "12 60\n\r"]);
}

/// The rules are document 01's, "The map of the fuses". The library judges; that each rule is
/// judged is tested with it.
#[test]
fn a_map_that_breaks_a_rule_is_told_with_its_line_and_the_rules() {
    let texts = ["3 60\n", "2049 60\n", "12 32\n", "12 65\n", "0 0\n", "65535 65535\n"];
    for text in texts {
        let more = format!("# a drive\n{text}0 6 0 7\n");
        check(&format!("line 2: {FIRST_RULES}"), &[&more, &format!("# a drive\n{text}")]);
    }
    let rules = "the map breaks a rule with this partition: first and cells are even; cells is \
                 at least 4, with flag 1 at least 6; it begins where the one before ends or \
                 later, and ends by C; kind is 0 hardware, 1 software or 2 life cycle; flags is \
                 the sum of 1 zeroizable, 2 secret, 4 slot and 8 older guide; flag 1 is not for \
                 kind 2, flag 2 is for kind 0 alone, flag 4 needs 1 and 2, and flag 8 needs 1";
    let lines = ["0 6 0 5", "1 6 0 7", "0 4 0 7", "0 14 0 0", "0 6 3 0", "0 6 0 8", "0 6 0 16"];
    for line in lines.into_iter().chain(["0 6 256 7"]) {
        check(&format!("line 2: {rules}"), &[&format!("12 60\n{line}\n6 6 1 0\ncell 0 1\n")]);
    }
    let second = ["4 6 1 0", "0 6 1 0", "6 8 1 0", "6 6 1 2", "6 6 2 1", "65532 6 1 0"];
    for line in second {
        let text = format!("12 60\n0 6 0 7\n\n# software\n{line}\n0 6\ncell 12 1\n");
        check(&format!("line 5: {rules}"), &[&text]);
    }
    // Of several lines at fault the first is told.
    check(&format!("line 2: {rules}"), &["12 60\n0 6 0 5\n6 6 1\n"]);
    check(&format!("line 2: {PARTITION}, {NUMBERS}, not \"0 6\""), &["12 60\n0 6\n6 6 1 2\n"]);
}

/// Whatever follows the map's first line has to be a partition.
#[test]
fn a_line_in_place_of_the_first_partition_is_told_and_no_line_at_all() {
    let slips = [" 0 6 0 7", "\t0 6 0 7", "+0 6 0 7", "-0 6 0 7", "partition 0 6 0 7", " "];
    let fuses = ["cell 0 1", "mark 0 1", "cells 0-5 FFFFFFFF", "Mark 0 1", " cell 0 1"];
    for line in slips.into_iter().chain(fuses) {
        let told = format!("{PARTITION}, {NUMBERS}, not {line:?}");
        check(&format!("line 2: {told}"), &[&format!("12 60\n{line}\n")]);
        let more = format!("12 60\n\n# the slot\n{line}\n6 6 1 0\ncell 0 1\n");
        check(&format!("line 4: {told}"), &[&more]);
        // A mistake in the first line is told before.
        check(&format!("line 1: {FIRST_RULES}"), &[&format!("12 65\n{line}\n")]);
    }
    let none = "the map has no partition: wanted `first cells kind flags` below this line";
    check(&format!("line 1: {none}"), &["12 60\n", "12 60\n\n# no more\n"]);
    check(&format!("line 2: {none}"), &["# a drive\n4 33\n"]);
}

/// "partition count P (1..16)"; and far more lines than any map has are told at once.
#[test]
fn a_seventeenth_partition_is_one_too_many() {
    let text = |count: usize| {
        let line = |number: usize| format!("{} 4 0 0\n", 4 * number);
        format!("2048 60\n{}", (0..count).map(line).collect::<String>())
    };
    assert_eq!(Drive::read(&text(16)).map(|drive| drive.image().len()), Ok(136));
    for count in [17, 18, 70_000] {
        check("line 18: a map has no more than 16 partitions", &[&text(count)]);
    }
}

#[test]
fn fuses_are_of_the_drive_in_order_given_once_and_hexadecimal() {
    let past = "is past the end: C is 12, and the first cell is 0";
    check_fourth(&format!("cell 12 {past}"), &["cell 12 1", "mark 12 1", "cell 0-12 1"]);
    check_fourth(&format!("cell 70000 {past}"), &["cell 70000 1"]);
    let far = "99999999999999999999";
    check_fourth(&format!("cell {far} {past}"), &[&format!("cell 0-{far} 1")]);
    check_fourth("the run 5-4 ends before it begins", &["cell 5-4 1"]);
    check_fourth("cell 3 has a value already", &["cell 3 1", "cell 0-5 1"]);
    check("line 4: mark 2 has a value already", &["4 60\n0 4 0 0\nmark 2 1\nmark 1-2 0\n"]);
    for (run, word) in [("0-", ""), ("-5", ""), ("0-5-6", "5-6"), ("01", "01"), ("+1", "+1")] {
        let expected = format!("cell: {word:?} is not a decimal number without leading zeros");
        check_fourth(&expected, &[&format!("cell {run} 1"), &format!("mark {run} 1")]);
    }
    for value in ["100000000", "000000001", "0xFF", "+F", "1G"] {
        let expected = format!("{value:?} is not 1 to 8 hexadecimal digits");
        check_fourth(&expected, &[&format!("cell 0 {value}"), &format!("mark 0 {value}")]);
    }
}
