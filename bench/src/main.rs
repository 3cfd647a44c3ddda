//! Measures everything and prints the table. With `--write` it also writes the
//! table to `bench/TABLE.md` and shows it in README.md.

use bench::measure::Measure;
use bench::{rows, sides, table};
use std::process::ExitCode;

/// Every row is measured in each pass, so that a disturbance does not hit one row alone.
const PASSES: usize = 40;
const ROUNDS: usize = 100;

fn main() -> ExitCode {
    let Some(write) = asked_to_write() else {
        eprintln!("usage: bench [--write]");
        return ExitCode::FAILURE;
    };
    if cfg!(debug_assertions) {
        panic!("times say something in an optimised build alone: --release");
    }
    let rows = rows::all();
    rows.iter().for_each(sides::check_equal);
    let mut measures: Vec<Measure> = rows.iter().map(Measure::new).collect();
    for _ in 0..PASSES {
        measures.iter_mut().for_each(|measure| (0..ROUNDS).for_each(|_| measure.round()));
    }
    let text = table::text(&measures);
    print!("{text}");
    if write {
        table::write(&text);
    }
    ExitCode::SUCCESS
}

/// Whether the table is to be written; none for other arguments. They are gone before anything is
/// measured, so that what is measured lies where it lies without them.
fn asked_to_write() -> Option<bool> {
    let arguments: Vec<String> = std::env::args().skip(1).collect();
    (arguments.len() <= 1 && arguments.iter().all(|argument| argument == "--write"))
        .then_some(arguments.len() == 1)
}
