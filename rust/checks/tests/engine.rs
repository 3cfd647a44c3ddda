//! Document 02, P5: an engine that answers late, never, twice or with failures, beside a drive that
//! goes on calling, and by P6 lists and rotates handles, from a fresh table. After each call the
//! proved key block is the model's, and every clause holds of its values; in the end replies and
//! CLKC lead back to an empty cache, so that no sequence locks it for good. The clauses can fail:
//! none does for a copy of the model, and each does for a copy with some fault, with the model not
//! asked.

use checks::calls::unlike_model;
use checks::engine::{broken, names, play, possible, BACK};
use checks::faults::{of_engine, of_handles, Faulty};
use checks::proved::Proved;
use checks::tally::Tally;
use std::collections::BTreeSet;

const SEQUENCES: usize = 200_000;
/// In so many of them each way of the engine and everything else has to be met.
const LEAST: usize = 1_000;
/// The sequences in which the faults have to break the clauses.
const FEW: usize = 1_000;

#[test]
fn no_engine_breaks_a_clause_or_locks_the_key_block() {
    let total = Tally::over(SEQUENCES, |tally, number| {
        let (met, back) = play(number, &mut Proved, |step| {
            let found = broken(step).into_iter().next();
            let side = (step.said, step.after);
            let found = found.or_else(|| unlike_model(step.before, step.call, side));
            assert_eq!(found, None, "sequence {number}, {}: {:X?}", step.call, step.before);
        });
        assert!(back, "sequence {number}: {BACK}");
        tally.add(met);
    });
    total.check((SEQUENCES, "sequences with an engine"), possible(), LEAST);
}

/// The clauses that a fault breaks in the sequence of this number.
fn broken_by(fault: &'static str, number: usize) -> BTreeSet<String> {
    let mut found = BTreeSet::new();
    let (_, back) = play(number, &mut Faulty(fault), |step| found.extend(broken(step)));
    found.extend((!back).then(|| BACK.to_string()));
    found
}

#[test]
fn no_clause_fails_in_a_copy_without_a_fault() {
    (0..FEW).for_each(|number| assert_eq!(broken_by("none", number), BTreeSet::new()));
}

#[test]
fn every_clause_is_broken_by_a_fault() {
    let mut whole: BTreeSet<String> = names().into_iter().collect();
    let mut numbers = 0..FEW;
    while let (Some(number), false) = (numbers.next(), whole.is_empty()) {
        let faults = of_engine().chain(of_handles());
        let found: BTreeSet<String> = faults.flat_map(|fault| broken_by(fault, number)).collect();
        whole.retain(|clause| !found.contains(clause));
    }
    assert_eq!(whole, BTreeSet::new(), "no fault breaks these");
}
