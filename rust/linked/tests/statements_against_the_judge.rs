//! The reader and the writer of DBD statements against the judge's, on a fixed seed.

use compare::{dbd, JUDGED_STATEMENTS};
use linked::STATEMENTS;

const TEXTS: u64 = 200_000;

#[test]
fn reader_and_writer_do_what_the_judge_says() {
    let tally = match dbd::run(&JUDGED_STATEMENTS, &STATEMENTS, 1, TEXTS) {
        Ok(tally) => tally,
        Err(difference) => panic!("{difference}"),
    };
    println!("{tally:?}");
    assert_eq!(tally.texts, TEXTS);
    for fault in [0, 1, 2, 3, 20, 28] {
        assert!(tally.read[&fault] > TEXTS / 1000, "fault {fault} is rare");
    }
    for status in [0, 20, 28] {
        assert!(
            tally.written[&status] > TEXTS / 1000,
            "status {status} is rare"
        );
    }
}
