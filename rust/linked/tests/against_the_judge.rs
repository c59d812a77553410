//! The store against the judge, on a fixed seed.

use compare::JUDGE;
use linked::STORE;

#[test]
fn the_store_does_what_the_judge_says() {
    match compare::run(&JUDGE, &STORE, 1, 250_000) {
        Ok(tally) => {
            println!("{tally}");
            assert!(tally.calls() >= 250_000);
        }
        Err(difference) => panic!("{difference}"),
    }
}
