//! The archive from outside: it needs no symbol, has the header's functions for others and
//! no more, and no unwind tables.

use checks::runner::{archive, printed};
use std::process::Command;

/// The symbols that `nm` lists with these options, without the lines that name
/// the files in the archive. In the format of POSIX a line begins with its symbol.
fn symbols(options: &[&str]) -> Vec<String> {
    let listed = printed(Command::new("nm").arg("-P").args(options).arg(archive()));
    let lines = listed.lines().filter(|line| !line.is_empty() && !line.ends_with(':'));
    lines.map(|line| line.split(' ').next().unwrap_or(line).to_string()).collect()
}

#[test]
fn archive_has_no_undefined_symbol() {
    assert_eq!(symbols(&["-u"]), [""; 0]);
}

#[test]
fn archive_defines_the_headers_functions_for_others_and_no_more() {
    let mut defined = symbols(&["-g", "--defined-only"]);
    defined.sort();
    let header = "cache_place engine_reply erase erase_cut mailbox make_table partition read \
                  restart states why write write_map zeroize";
    let header: Vec<String> = header.split(' ').map(|name| format!("sci_{name}")).collect();
    assert_eq!(defined, header);
}

/// README's limits.
#[test]
fn archive_has_no_unwind_tables() {
    let sections = printed(Command::new("readelf").arg("-SW").arg(archive()));
    assert!(sections.contains(".text") && !sections.contains(".eh_frame"), "{sections}");
}
