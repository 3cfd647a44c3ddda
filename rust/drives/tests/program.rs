//! The program `make_drive`: where it reads, what it writes, and its exit status.

use std::fs::{self, File};
use std::path::PathBuf;
use std::process::{Command, Stdio};

/// A file that holds these bytes.
fn file(name: &str, bytes: &[u8]) -> PathBuf {
    let path = PathBuf::from(env!("CARGO_TARGET_TMPDIR")).join(name);
    fs::write(&path, bytes).expect("the file can be written");
    path
}

/// Run with these files named and this standard input, it writes the bytes and
/// says nothing, or writes nothing and says what is wrong.
fn check(named: &[&PathBuf], input: Option<&PathBuf>, expected: Result<&[u8], &str>) {
    let open = |path| File::open(path).expect("the file can be read").into();
    let input = input.map_or_else(Stdio::null, open);
    let mut program = Command::new(env!("CARGO_BIN_EXE_make_drive"));
    let output = program.args(named).stdin(input).output().expect("the program starts");
    let said = expected.err().map_or(String::new(), |said| format!("make_drive: {said}\n"));
    assert_eq!(String::from_utf8_lossy(&output.stderr), said);
    assert_eq!(output.stdout, expected.unwrap_or(&[]));
    assert_eq!(output.status.code(), Some(expected.is_err().into()));
}

#[test]
fn text_is_read_from_standard_input_or_from_the_file_that_is_named() {
    let good = file("good", b"4 60\n0 4 0 0\ncell 0 1\n");
    let mut bytes = vec![16, 0, 1, 0, 4, 0, 60, 0, 8, 0, 0, 0, 4, 0, 0, 0, 0, 0, 1];
    bytes.resize(2 + 16 + 2 * 4 * 4, 0);
    let mistaken = file("mistaken", b"4 60\n0 4 0 0\ncell 4 1\n");
    let said = "line 3: cell 4 is past the end: C is 4, and the first cell is 0";
    for (text, expected) in [(good, Ok(&bytes[..])), (mistaken, Err(said))] {
        check(&[], Some(&text), expected);
        check(&[&text], None, expected);
    }
}

#[test]
fn refused_map_is_told_in_the_words_beside_the_sample_and_nothing_written() {
    let samples = PathBuf::from(env!("CARGO_MANIFEST_DIR")).join("../../drives");
    let mistake = fs::read_to_string(samples.join("refused_map.mistake"));
    let mistake = mistake.expect("the sample's mistake can be read");
    let said = mistake.strip_prefix("make_drive: ").and_then(|said| said.strip_suffix('\n'));
    check(&[], Some(&samples.join("refused_map.txt")), Err(said.expect("a line of make_drive")));
}

#[test]
fn text_that_cannot_be_read_is_told_and_nothing_written() {
    let no_text = file("no_text", b"4 60\n0 4 0 0\ncell 0 \xFF\n");
    check(&[], Some(&no_text), Err("the text is not UTF-8"));
    let utf_16 =
        "line 1: the text begins with a byte order mark of UTF-16, the bytes FF FE or FE FF: \
        save it as UTF-8 without one";
    for bytes in [b"\xFF\xFE4\0 \06\0", b"\xFE\xFF\04\0 \06"] {
        check(&[], Some(&file("utf_16", bytes)), Err(utf_16));
    }
    let missing = PathBuf::from("no/such/text");
    let two = "name one text, or none to read standard input";
    check(&[&missing, &missing], None, Err(two));
    let why = fs::read(&missing).expect_err("there is no such file");
    check(&[&missing], None, Err(&format!("no/such/text: {why}")));
}
