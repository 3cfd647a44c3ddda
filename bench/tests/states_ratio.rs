//! On 2,048 cells in 16 partitions the states take at most 1.5 times as long as
//! safe Rust that finds the same states and short pairs with its own bit count on
//! each pair, which is `plain::states`.

use bench::measure::Measure;
use bench::rows::{self, Row};
use bench::sides::{check_equal, PLAIN};

const MOST: f64 = 1.5;

/// Rounds of one attempt, of which the best times count.
const ROUNDS: usize = 1_000;
/// What else runs on the machine may disturb the best times too, so a ratio
/// that is too high is measured again; all attempts have to fail.
const ATTEMPTS: usize = 8;

#[test]
#[cfg_attr(debug_assertions, ignore = "times are measured in an optimised build")]
fn states_take_at_most_one_and_a_half_times_as_long_as_plain_rust() {
    let row = rows::states();
    check_equal(&row);
    let mut too_high = vec![];
    while too_high.len() < ATTEMPTS {
        let ratio = ratio_of(&row);
        if ratio <= MOST {
            return;
        }
        too_high.push(ratio);
    }
    panic!("library / plain, measured again and again: {too_high:.2?}");
}

/// The ratio of library to plain Rust in one attempt.
fn ratio_of(row: &Row) -> f64 {
    let mut measure = Measure::new(row);
    (0..ROUNDS).for_each(|_| measure.round());
    measure.ratio(PLAIN)
}
