//! The proved key block against the model, over generated calls: through its safe
//! Rust functions, and as C calls it. The comparison can fail: it finds nothing in a
//! copy of the model, and something in every copy with a single fault.

use checks::archive::Archive;
use checks::calls;
use checks::faults::{of_charge, of_engine, of_guides, of_handles, Faulty};
use checks::faults::{OF_COMPARISONS, OF_HISTORIES, OF_STATES};
use checks::proved::Proved;
use checks::tally::Tally;
use model::KeyBlock;

/// Sequences of a run, of 60 to 120 calls each, and the calls that it has to have.
const ALL: (usize, usize) = (28_000, 2_200_000);
/// The same for the run of C's calls.
const SOME: (usize, usize) = (14_000, 1_100_000);
/// Everything that can happen has to happen so often, or the generator has become trivial.
const LEAST: usize = 100;
/// The sequences in which a fault has to be found.
const FEW: usize = 400;

fn play<B: KeyBlock>((sequences, calls): (usize, usize), block: impl Fn() -> B + Sync) {
    let total = Tally::over(sequences, |tally, number| {
        calls::sequence(number, &mut block(), tally).unwrap_or_else(|found| panic!("{found}"));
    });
    total.check((calls, "calls"), calls::possible(), LEAST);
}

#[test]
fn key_block_is_the_models_on_generated_calls_of_every_outcome() {
    play(ALL, || Proved);
}

#[test]
fn key_block_as_c_calls_it_is_the_models_on_generated_calls_of_every_outcome() {
    play(SOME, Archive::default);
}

fn compare(fault: &'static str) -> Result<(), String> {
    let mut tally = Tally::default();
    (0..FEW).try_for_each(|number| calls::sequence(number, &mut Faulty(fault), &mut tally))
}

#[test]
fn nothing_is_found_in_a_copy_without_a_fault() {
    assert_eq!(compare("none"), Ok(()));
}

#[test]
fn every_fault_is_found() {
    let of_calls = OF_HISTORIES.into_iter().chain(OF_STATES);
    let of_requests = of_engine().chain(of_handles()).chain(of_guides()).chain(of_charge());
    for fault in of_calls.chain(of_requests) {
        assert!(compare(fault).is_err(), "not found: {fault}");
    }
}

#[test]
fn a_difference_names_the_sequence_the_call_and_what_differs() {
    for what in OF_COMPARISONS {
        let found = compare(what).expect_err(what);
        let (call, difference) = found.split_once('\n').expect("a line each");
        assert!(call.starts_with("sequence ") && call.contains(", call "), "{call}");
        assert!(difference.starts_with(what), "{what}: {difference}");
    }
}
