//! The table of docs/STACK.md: what each call may take, and what it took before.

use super::Used;
use crate::runner::in_repository;
use std::fmt;
use std::fs;

/// Its head, and that of the list of rows that grew.
pub const HEAD: &str = "| call | C before | C now | safe Rust before | safe Rust now |";
pub const GROWN: &str = "## Calls that grew, and why\n";

/// A row, by the name of its calls.
#[derive(Clone, Debug)]
pub struct Row {
    pub name: String,
    pub before: Used,
    pub now: Used,
    /// Whether a reason is given why it grew.
    pub reasoned: bool,
}

/// The table as it is kept.
pub fn kept() -> Vec<Row> {
    read(&fs::read_to_string(in_repository("docs/STACK.md")).expect("docs/STACK.md is there"))
}

/// The table in a document, each row with its reason under the head of those that grew.
pub fn read(text: &str) -> Vec<Row> {
    let under = |head| text.split_once(head).map(|(_, under)| under).expect("its head is there");
    let lines = under(HEAD).lines().skip(2).take_while(|line| line.starts_with('|'));
    let grown: Vec<&str> = under(GROWN).lines().take_while(|line| !line.starts_with('#')).collect();
    lines.map(|line| read_row(line, &grown)).collect()
}

fn read_row(line: &str, grown: &[&str]) -> Row {
    let cells: Vec<&str> = line.trim_matches('|').split('|').map(str::trim).collect();
    let number = |cell: &&str| cell.parse().ok();
    let bytes: Vec<usize> = cells.iter().skip(1).filter_map(number).collect();
    match bytes[..] {
        [c_before, c, safe_rust_before, safe_rust] if cells.len() == 5 => Row {
            name: cells[0].to_string(),
            before: Used { c: c_before, safe_rust: safe_rust_before },
            now: Used { c, safe_rust },
            reasoned: grown.iter().any(|line| line.starts_with(&format!("- {}: ", cells[0]))),
        },
        _ => panic!("docs/STACK.md: no row of the table: {line}"),
    }
}

/// The row as the table has it.
impl fmt::Display for Row {
    fn fmt(&self, f: &mut fmt::Formatter) -> fmt::Result {
        let Row { name, before, now, .. } = self;
        write!(f, "| {name} | {} | {} ", before.c, now.c)?;
        write!(f, "| {} | {} |", before.safe_rust, now.safe_rust)
    }
}
