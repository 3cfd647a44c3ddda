//! Demand 3 over generated histories of the proved key block, and P8's sum: every clause on
//! the values that it gives and leaves, and every call against the model. The clauses
//! can fail: none does in histories of a copy of the model, some does with every fault
//! that breaks the demand, and each does with some fault, with the model not asked. With wrong
//! numbers of new fuses the sum alone fails: the others leave them out.

use checks::faults::{of_sums, Faulty, OF_HISTORIES};
use checks::histories::{all_hold, broken_clauses, names, possible, History, SUM};
use std::collections::BTreeSet;

const HISTORIES: usize = 200_000;
/// Every clause has to have been asked for something so often, and everything
/// else that can happen has to happen so often.
const LEAST: usize = 1_000;
/// The histories in which a fault has to be found.
const FEW: usize = 2_000;

#[test]
fn demand_3_holds_over_generated_histories() {
    let total = all_hold(HISTORIES, History::numbered);
    total.check((HISTORIES, "histories"), possible(), LEAST);
}

fn broken(fault: &'static str) -> BTreeSet<String> {
    let broken = |number| broken_clauses(&History::numbered(number), &mut Faulty(fault));
    (0..FEW).flat_map(broken).collect()
}

#[test]
fn no_clause_fails_in_a_copy_without_a_fault() {
    assert_eq!(broken("none"), BTreeSet::new());
}

#[test]
fn every_fault_breaks_a_clause_and_every_clause_is_broken_by_a_fault() {
    let mut found = BTreeSet::new();
    for fault in OF_HISTORIES {
        let clauses = broken(fault);
        assert!(!clauses.is_empty(), "not found: {fault}");
        found.extend(clauses);
    }
    assert_eq!(found, names().into_iter().collect(), "no fault breaks the others");
}

#[test]
fn every_wrong_number_of_new_fuses_breaks_the_sum_and_no_other_clause() {
    for fault in of_sums() {
        assert_eq!(broken(fault), BTreeSet::from([SUM.to_string()]), "{fault}");
    }
}

#[test]
fn a_number_of_new_fuses_in_another_field_is_not_left_out() {
    let broken = broken("FERS's new fuses before its first short cell");
    assert!(broken.contains("an uncut attempt answers as if made first"), "{broken:?}");
}
