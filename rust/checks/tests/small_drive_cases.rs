//! Document 01, "The small drive", cases 1 to 10, of which document 02 changes 5 and 6 by P4, 10
//! by P5 and 2 to 7 by P8, and then the messages of P6: what the program `small_drive` prints,
//! which plays them on the proved key block. A line has the request's chksum, the answer, the
//! fields of the response, and the slot as it stands after it.

use checks::runner;
use std::path::Path;

/// Cases 1 to 9. The chksums and new fuses that the documents do not give follow from their sum,
/// and from the slot's 192 fuses, of which one is set at the start: BF is 191, BB 187, BA 186, 60
/// is 96.
const CASES: &str = "\
case 1, mark 00 on cell 0: FSTA FFFFFED2, status: 20 bytes, no order [FFFFFFFF, 0, 0, 0, 1]; FRESH
case 2, mark 00 on cell 0: FERS FFFFFED0, partition 0: 24 bytes, no order \
[FFFFFB45, 0, 0, 0, FFFFFFFF, BF]; ERASED, FFFFFFFF, ONES
case 2, mark 00 on cell 0: erasure: short 0, burns 3, new fuses 191; ERASED, FFFFFFFF, ONES
case 3, mark 0F on cell 1: FERS FFFFFED0, partition 0: 24 bytes, no order \
[FFFFFB49, 0, 0, 0, FFFFFFFF, BB]; ERASED, FFFFFFF0, ONES
case 4, mark 1F on cell 1: FERS FFFFFED0, partition 0: 24 bytes, no order \
[FFFFFF45, 0, 0, 1, 0, BA]; torn, 1 short, hek none, [FFFFFFFF, FFFFFFE0, ONES
case 4, mark 1F on cell 1: FSTA FFFFFED2, status: 20 bytes, no order \
[0, 0, 0, 0, 0]; torn, 1 short, hek none, [FFFFFFFF, FFFFFFE0, ONES
case 5, mark 1F on cell 5: FERS FFFFFED0, partition 0: 24 bytes, no order \
[FFFFFF41, 0, 0, 1, 4, BA]; erased, 1 short, hek none, \
[FFFFFFFF, FFFFFFFF, FFFFFFFF, FFFFFFFF, FFFFFFFF, FFFFFFE0]
case 6, mark 00 on cell 0: erasure cut at 0, low 59 bits: cut, burns 1, new fuses 59; \
torn, 3 short, hek none, [1, 0, 0, 0, FFFFFFFF, 7FFFFFF]
case 6, mark 00 on cell 0: erasure cut at 0, low 60 bits: cut, burns 1, new fuses 60; \
torn, 2 short, hek none, [1, 0, 0, 0, FFFFFFFF, FFFFFFF]
case 7, mark 00 on cell 0: erasure cut at 1, low 32 bits: cut, burns 2, new fuses 95; \
torn, 2 short, hek none, [FFFFFFFF, 0, 0, 0, FFFFFFFF, FFFFFFFF]
case 7, mark 00 on cell 0: FERS FFFFFED0, partition 0: 24 bytes, no order \
[FFFFFBA4, 0, 0, 0, FFFFFFFF, 60]; ERASED, FFFFFFFF, ONES
case 8, mark 00 on cell 0: FERS FFFFFECF, partition 1: refused 8; FRESH
case 8, mark 00 on cell 0: FERS FFFFFECE, partition 2: refused 7; FRESH
case 9, mark 00 on cell 0: CLKC FFFFFDF8, timeout 1000: 12 bytes, clear, timeout 1000 [0, 0, 0]; FRESH
";

/// P6, on a table of the handles 5, 9 and 7 with the algorithms 1, 2 and 2. The bytes of EHDL's
/// code sum to 11D, those of RHPK's to 135.
const TABLE: &str = "\
table: EHDL FFFFFEE3, list: 40 bytes, no order [FFFFFFE3, 0, 0, 3, 5, 1, 9, 2, 7, 2]; FRESH
table: RHPK FFFFFEC2, handle 9: 16 bytes, no order [FFFFFFF6, 0, 0, A]; FRESH
table: RHPK FFFFFEC2, handle 9: refused 20; FRESH
table: EHDL FFFFFEE3, list: 40 bytes, no order [FFFFFFE2, 0, 0, 3, 5, 1, A, 2, 7, 2]; FRESH
";

/// What stands for the words in capitals: the slot as it was, the slot where no pair is short, with
/// its first cell, and the last four cells.
const WORDS: [(&str, &str); 3] = [
    ("FRESH", "programmed, 3 short, hek 0, [1, 0, 0, 0, 0, 0]"),
    ("ERASED", "erased, 0 short, hek none, [FFFFFFFF"),
    ("ONES", "FFFFFFFF, FFFFFFFF, FFFFFFFF, FFFFFFFF]"),
];

/// The bytes of KLOD's code sum to 12A, those of KUNL's to 13A. Of a response the
/// place is the one byte that is not 0. P5: "each order is answered done".
fn case_10() -> String {
    const DONE: &str = "case 10: engine done: taken; FRESH\n";
    let line = |name: &str, sum: u32, tag: u32, answer: &str| {
        let chksum = 0_u32.wrapping_sub(sum + tag);
        format!("case 10: {name} {chksum:08X}, tag {tag}: {answer}; FRESH\n")
    };
    let load = |tag: u32, place: u32| {
        let chksum = 0_u32.wrapping_sub(place);
        let response = format!("[{chksum:X}, 0, 0, {place:X}]");
        line("KLOD", 0x12A, tag, &format!("16 bytes, load, place {place} {response}")) + DONE
    };
    let mut lines: String = (0..16).map(|place| load(100 + place, place)).collect();
    lines += &line("KLOD", 0x12A, 116, "refused 13");
    lines += &line("KLOD", 0x12A, 107, "refused 12");
    lines += &line("KUNL", 0x13A, 103, "12 bytes, unload, place 3 [0, 0, 0]");
    lines + DONE + &load(117, 3)
}

#[test]
fn cases_1_to_10_and_p6s_messages_are_the_documents() {
    let program = Path::new(env!("CARGO_BIN_EXE_small_drive"));
    let printed = runner::run(program, &[]);
    let fill = |text: String, (word, meaning): &(&str, &str)| text.replace(word, meaning);
    let expected = WORDS.iter().fold([CASES, &case_10(), TABLE].concat(), fill);
    assert_eq!(String::from_utf8_lossy(&printed), expected);
}
