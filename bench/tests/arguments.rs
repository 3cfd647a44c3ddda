//! The program refuses arguments that it does not know, before it measures.

use std::process::Command;

#[test]
fn unknown_arguments_are_refused_with_a_usage_line() {
    for wrong in [&["--wirte"][..], &["write"], &[""], &["--write", "--write"]] {
        let output = Command::new(env!("CARGO_BIN_EXE_bench")).args(wrong).output();
        let output = output.expect("the program starts");
        assert_eq!(output.status.code(), Some(1), "{wrong:?}");
        let (printed, warned) = (output.stdout.as_slice(), output.stderr.as_slice());
        assert_eq!((printed, warned), (&b""[..], &b"usage: bench [--write]\n"[..]), "{wrong:?}");
    }
}
