//! The sides do the same work: on every input that is measured, and the plain
//! Rust on generated calls of every outcome too.

use bench::rows;
use bench::sides::{check_equal, Plain};
use checks::calls;
use checks::tally::Tally;

/// Sequences of calls that are played.
const SEQUENCES: usize = 1_500;

#[test]
fn all_sides_are_equal_on_every_input_that_is_measured() {
    rows::all().iter().for_each(check_equal);
}

#[test]
fn plain_answers_generated_calls_as_the_model_does() {
    let total = Tally::over(SEQUENCES, |tally, number| {
        calls::sequence(number, &mut Plain, tally).unwrap_or_else(|found| panic!("{found}"));
    });
    total.check((100_000, "calls"), calls::possible(), 1);
}
