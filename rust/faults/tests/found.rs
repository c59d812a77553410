//! Each fault is found, and nothing is found where there is none.

use compare::{dbd, run, JUDGE, JUDGED_STATEMENTS};
use faults::{FAULTLESS, FAULTLESS_STATEMENTS, FAULTY, FAULTY_STATEMENTS};

const SEED: u64 = 7;
const CALLS: u64 = 150_000;
const TEXTS: u64 = 40_000;

#[test]
fn every_fault_is_found() {
    let missed: Vec<&str> = FAULTY
        .iter()
        .filter(|faulty| match run(&JUDGE, faulty, SEED, CALLS) {
            Ok(_) => true,
            Err(found) => {
                println!("case {:6}: {}", found.case, faulty.name);
                false
            }
        })
        .map(|faulty| faulty.name)
        .collect();
    assert!(missed.is_empty(), "not found: {missed:#?}");
    assert!(FAULTY.len() >= 20);
}

#[test]
fn nothing_is_found_without_a_fault() {
    if let Err(difference) = run(&JUDGE, &FAULTLESS, SEED, CALLS / 2) {
        panic!("{difference}");
    }
}

#[test]
fn every_fault_of_the_statements_is_found() {
    let missed: Vec<&str> = FAULTY_STATEMENTS
        .iter()
        .filter(|faulty| dbd::run(&JUDGED_STATEMENTS, faulty, SEED, TEXTS).is_ok())
        .map(|faulty| faulty.name)
        .collect();
    assert!(missed.is_empty(), "not found: {missed:#?}");
    assert!(FAULTY_STATEMENTS.len() >= 30);
}

#[test]
fn nothing_is_found_in_the_statements_without_a_fault() {
    if let Err(difference) = dbd::run(&JUDGED_STATEMENTS, &FAULTLESS_STATEMENTS, SEED, TEXTS / 8) {
        panic!("{difference}");
    }
}
