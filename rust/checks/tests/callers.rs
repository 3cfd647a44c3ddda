//! Callers. A C program is compiled with every warning an error, linked and run; its lines are
//! written from the documents. Every fuse of the indicator is stuck: it stops an erasure, so that
//! the slot is still programmed and its HEK available. On another drive, with the mark 1F on cell
//! 5 instead, ZEROIZE gives the indicator 59 ones, one below the bound, and withholds it; the
//! erasure that follows ends with that pair short. On a board on the older guide a secret pair of
//! 60 ones is told as 64, one of 59 is withheld, and a word of one cell that lacks five is told as
//! 32, of which 27 fuses are new. A secret word's are not told; those of the erasure are, 63 of
//! word 0 and 64 of the digest, since the indicator's were set before. Other cells have the
//! indicator set and three fuses of the digest: they are torn. EHDL is refused while there is no
//! table. No table is made of no handle, of four, of two that are equal, or of handles that are
//! not as many as their algorithms; then one is made, and a second is refused. Its first handle is
//! two below the last number: two rotations use the numbers up. A key is loaded, and the engine's
//! reply to it handed in twice; then the cache is cleared again and again, with every other reply
//! first, numbers that are no reply among them, which count as failed, and with done last. The
//! maps are the header's two texts, then one with too little room, one without its last line feed,
//! and one with a slot that is not secret. A program that drops an erasure's answer is warned by
//! its compiler, in C and in Rust: an erasure that ended is not yet an erased partition.

use checks::runner::{compiled, in_repository, run};
use std::path::{Path, PathBuf};
use std::process::Command;

const WORDS: &str = "\
READ 0: kind 3, refusal 8, word 0, new fuses 0
WRITE 7: kind 0, refusal 0, word 129, new fuses 2
WRITE 7: kind 0, refusal 0, word 137, new fuses 1
READ 7: kind 0, refusal 0, word 137, new fuses 0
WRITE 0: kind 1, refusal 0, word 0, new fuses 0
ZEROIZE 4: kind 2, refusal 0, word 0, new fuses 0
ZEROIZE 6: kind 3, refusal 8, word 0, new fuses 0
older guide, ZEROIZE: kind 0, refusal 0, word 18446744073709551615, new fuses 0
older guide, ZEROIZE: kind 2, refusal 0, word 0, new fuses 0
older guide, ZEROIZE: kind 0, refusal 0, word 4294967295, new fuses 27
cells 1, 3 and 7: FFFFFFF0 FFFFFFE0 FFFFFFE0
erasure: kind 2, refusal 15, short 0, first 0, burns 1, new fuses 0
erasure: kind 0, refusal 0, short 1, first 4, burns 3, new fuses 127
EHDL: refusal 2, length 0, order 0, place 0, timeout 0; place 0: kind 0, tag 0
table of 0, 0: refusal 2
table of 4, 4: refusal 2
table of 2, 1: refusal 2
table of 2, 3: refusal 2
table of 3, 3: refusal 2
table of 3, 3: refusal 0
table of 1, 1: refusal 2
EHDL: refusal 0, length 40, order 0, place 0, timeout 0; place 0: kind 0, tag 0
response: DD FA FF FF 00 00 00 00 00 00 00 00 03 00 00 00 FD FF FF FF 78 56 34 12 \
05 00 00 00 02 00 00 00 09 00 00 00 02 00 00 00
RHPK: refusal 0, length 16, order 0, place 0, timeout 0; place 0: kind 0, tag 0
response: 05 FC FF FF 00 00 00 00 00 00 00 00 FE FF FF FF
RHPK: refusal 20, length 0, order 0, place 0, timeout 0; place 0: kind 0, tag 0
response:
RHPK: refusal 0, length 16, order 0, place 0, timeout 0; place 0: kind 0, tag 0
response: 04 FC FF FF 00 00 00 00 00 00 00 00 FF FF FF FF
RHPK: refusal 21, length 0, order 0, place 0, timeout 0; place 0: kind 0, tag 0
response:
EHDL: refusal 0, length 40, order 0, place 0, timeout 0; place 0: kind 0, tag 0
response: F4 F2 FF FF 00 00 00 00 00 00 00 00 03 00 00 00 FD FF FF FF 78 56 34 12 \
FE FF FF FF 02 00 00 00 FF FF FF FF 02 00 00 00
KLOD: refusal 0, length 16, order 2, place 0, timeout 6; place 0: kind 2, tag 700000005
KLOD: refusal 12, length 0, order 0, place 0, timeout 0; place 0: kind 2, tag 700000005
reply 1: refusal 0; place 0: kind 1, tag 700000005
reply 1: refusal 19; place 0: kind 1, tag 700000005
CLKC: refusal 0, length 12, order 1, place 0, timeout 1000; place 0: kind 2, tag 700000005
reply 2: refusal 0; place 0: kind 3, tag 700000005
CLKC: refusal 0, length 12, order 1, place 0, timeout 1000; place 0: kind 2, tag 700000005
reply 3: refusal 0; place 0: kind 3, tag 700000005
CLKC: refusal 0, length 12, order 1, place 0, timeout 1000; place 0: kind 2, tag 700000005
reply 0: refusal 0; place 0: kind 3, tag 700000005
CLKC: refusal 0, length 12, order 1, place 0, timeout 1000; place 0: kind 2, tag 700000005
reply 4: refusal 0; place 0: kind 3, tag 700000005
CLKC: refusal 0, length 12, order 1, place 0, timeout 1000; place 0: kind 2, tag 700000005
reply 4294967295: refusal 0; place 0: kind 3, tag 700000005
CLKC: refusal 0, length 12, order 1, place 0, timeout 1000; place 0: kind 2, tag 700000005
reply 1: refusal 0; place 0: kind 0, tag 0
why: kind 0, refusal 0, partition 0, cell 0, ones 0
why, torn: kind 4, refusal 0, partition 0, cell 2, ones 3
why, a cell too few: kind 5, refusal 2, partition 0, cell 0, ones 0
map: refusal 0, bytes 24, 02 00 0C 00 3C 00 08 00 00 00 06 00 00 07 00 00 06 00 06 00 01 00 00 00 A5
map: refusal 0, bytes 16, 01 00 40 00 21 00 08 00 00 00 40 00 02 00 00 00 A5
map: refusal 16, bytes 0, A5
map: refusal 16, bytes 0, A5
map: refusal 1, bytes 0, A5
";

fn in_target(name: &str) -> PathBuf {
    Path::new(env!("CARGO_TARGET_TMPDIR")).join(name)
}

/// What a compiler says of a source that it compiles, and does not link.
fn warnings(compiler: &mut Command, source: &str) -> String {
    let output = compiler.arg(in_repository(source)).output().expect("the compiler starts");
    let said = String::from_utf8(output.stderr).expect("it says it in text");
    assert!(output.status.success(), "{said}");
    said
}

#[test]
fn c_program_gets_the_documents_answers() {
    let program = compiled(&["rust/checks/c/words.c"], &in_target(""));
    assert_eq!(String::from_utf8_lossy(&run(&program, &[])), WORDS);
}

#[test]
fn c_warns_of_a_dropped_erasure() {
    let mut cc = Command::new("cc");
    cc.args(["-std=c99", "-c", "-o"]).arg(in_target("dropped.o"));
    cc.arg("-I").arg(in_repository("include"));
    let said = warnings(&mut cc, "rust/checks/c/dropped.c");
    assert!(said.contains("sci_erase") && said.contains("warn_unused_result"), "{said}");
}

#[test]
fn rust_warns_of_a_dropped_erasure() {
    let rustc = |name: &str, source| {
        let mut rustc = Command::new(std::env::var_os("RUSTC").unwrap_or_else(|| "rustc".into()));
        rustc.args(["--edition", "2021", "--crate-type", "lib", "--emit", "metadata"]);
        rustc.args(["--crate-name", name, "--out-dir"]).arg(in_target(""));
        warnings(rustc.arg("-L").arg(in_target("")), source)
    };
    rustc("sciambrunola", "rust/sciambrunola/src/lib.rs");
    let said = rustc("dropped", "rust/checks/c/dropped.rs");
    assert!(said.contains("unused `Erasure` that must be used"), "{said}");
    assert!(said.contains("only if no pair but the indicator is short"), "{said}");
}
