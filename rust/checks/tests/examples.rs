//! The examples for C and for Rust print the same lines. They are written from document 01: "The
//! small drive" gives the map and its fields, case 1 what FSTA answers, case 7 what the cut leaves
//! and what the next erasure answers; loads take the places 0 and 1 ("Active slot and key cache"),
//! an erasure of the slot is refused with 10 in between, and an erased slot is not active. What a
//! place is before and after each reply of the engine, and what is refused with 17 and 18, is
//! document 02's P5; why there is no key is its P1. The new number of the handle 1, beside a 2, and
//! that the restart leaves it, is its P6; the new fuses are its P8: 64 of the indicator and 31 of
//! word 0 for the cut, 32 of word 0 and 64 of the digest for the last erasure, less those that are
//! stuck.
//!
//! With a stuck mark on cell 1 the last erasure is that of case 3 (0F: 60 of 64
//! ones, erased) or of case 4 (1F: 59 of 64 ones, short 1, torn), with one on cell 5
//! it is that of case 5, which document 02, P4, changes (1F: the indicator has 59 of 64
//! ones, short 1, erased). An example that leaves the slot torn must fail.

use checks::runner;
use std::path::Path;
use std::process::Command;

/// Up to the restart after the power failure; the states then have short word 0 and digest, and the
/// indicator if its fuses are stuck.
const BEGINNING: &str = "\
map: 2 partitions, 12 cells, bound 60
partition 0: first cell 0, 6 cells, kind 0, flags 7
partition 1: first cell 6, 6 cells, kind 1, flags 0
states: 0 programmed, 3 short; 1 blank, 3 short
table: made
EHDL: handle 1 algorithm 1, handle 2 algorithm 2
RHPK: handle 1 becomes 3
EHDL: handle 3 algorithm 1, handle 2 algorithm 2
FSTA: active slot 0x00000000, HEK available 1
KLOD: load place 0, timeout 1000
places: 0 waiting
engine: done
places: 0 held
erasure: refused 10
KLOD: load place 1, timeout 1000
places: 0 held, 1 waiting
CLKC: refused 17
FSTA: active slot 0x00000000, HEK available 1
engine: timed out
places: 0 held, 1 unsure
KLOD: refused 18
CLKC: clear, timeout 1000
places: 0 waiting, 1 waiting
engine: done
places: all empty
erasure cut: 2 burns, CUT new fuses
restart
places: all empty
EHDL: handle 3 algorithm 1, handle 2 algorithm 2
states: 0 torn, SHORT short; 1 blank, 3 short
";

const ERASED: &str = "\
erasure: 0 short, 3 burns, NEW new fuses
states: 0 erased, 0 short; 1 blank, 3 short
why: every slot is erased
FSTA: active slot 0xFFFFFFFF, HEK available 0
";

const ERASED_WEAKLY: &str = "\
erasure: 1 short, 3 burns, NEW new fuses
states: 0 erased, 1 short; 1 blank, 3 short
why: every slot is erased
FSTA: active slot 0xFFFFFFFF, HEK available 0
";

const TORN: &str = "\
erasure: 1 short, 3 burns, NEW new fuses
states: 0 torn, 1 short; 1 blank, 3 short
why: slot 0 is torn, its pair at cell 0 has 59 ones
";

const TORN_WEAKLY: &str = "\
erasure: 2 short, 3 burns, NEW new fuses
states: 0 torn, 2 short; 1 blank, 3 short
why: slot 0 is torn, its pair at cell 0 has 59 ones
";

/// What the examples say of it on standard error.
const WARNING: &str = "erasure: the slot is torn, its seed may still be there\n";

/// What a run ended with: its exit status, and what it printed and warned.
type Ran = (Option<i32>, String, String);

fn run(program: &Path, arguments: &[&str]) -> Ran {
    let output = Command::new(program).args(arguments).output().expect("the example starts");
    let text = |bytes| String::from_utf8(bytes).expect("the example prints text");
    (output.status.code(), text(output.stdout), text(output.stderr))
}

/// A run that ends so, with this number of short pairs after the cut, and these of new fuses by the
/// cut and by the last erasure.
fn ends(status: i32, [short, cut, new]: [u32; 3], end: &str, warning: &str) -> Ran {
    let numbers = [("SHORT", short), ("CUT", cut), ("NEW", new)];
    let put = |text: String, (name, number): (&str, u32)| text.replace(name, &number.to_string());
    let printed = numbers.into_iter().fold([BEGINNING, end].concat(), put);
    (Some(status), printed, warning.to_string())
}

/// Runs an example with no mark, with those of cases 3, 4 and 5, with those of 4 and 5 at once, and
/// with arguments that are none.
fn check(program: &Path) {
    assert_eq!(run(program, &[]), ends(0, [2, 95, 96], ERASED, ""));
    assert_eq!(run(program, &["0F"]), ends(0, [2, 95, 92], ERASED, ""));
    assert_eq!(run(program, &["1F"]), ends(1, [2, 95, 91], TORN, WARNING));
    assert_eq!(run(program, &["0", "0F"]), ends(0, [2, 91, 96], ERASED, ""));
    assert_eq!(run(program, &["0", "1F"]), ends(0, [3, 90, 96], ERASED_WEAKLY, ""));
    assert_eq!(run(program, &["1F", "1F"]), ends(1, [3, 90, 91], TORN_WEAKLY, WARNING));
    let wrong = ["no mark", "", "100000000", "-1", "+1F", " 1F", "0x1F"];
    let wrong = wrong.into_iter().flat_map(|mark| [vec![mark], vec!["1F", mark]]);
    for wrong in wrong.chain([vec!["1F"; 3]]) {
        let (status, printed, warning) = run(program, &wrong);
        assert_eq!((status, printed.as_str()), (Some(1), ""), "{wrong:?}");
        assert!(warning.starts_with("usage: "), "{warning}");
    }
}

#[test]
fn c_example_does_what_the_document_says() {
    let directory = Path::new(env!("CARGO_TARGET_TMPDIR"));
    check(&runner::compiled(&["examples/c/key_block.c", "examples/c/mailbox.c"], directory));
}

#[test]
fn rust_example_does_what_the_document_says() {
    check(Path::new(env!("CARGO_BIN_EXE_key_block")));
}
