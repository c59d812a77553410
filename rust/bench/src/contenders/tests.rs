//! Everybody does the same, before anything is timed.

use super::*;
use crate::calls::Measured;
use face::Functions;

#[test]
fn everybody_does_the_same() {
    for size in [10, 64, 512] {
        let sample = Sample::new(size);
        let mut contenders = contenders(&sample);
        for operation in Operation::ALL {
            agreed(&mut contenders, &operation);
        }
        assert!(contenders.iter().all(|contender| contender.is_as_before()));
    }
}

/// The judge, which shares no code with the store.
struct Judged;

impl Measured for Judged {
    const FUNCTIONS: Functions = face::functions!("judge", judge::lent);
}

#[test]
fn the_worst_tables_hold_what_their_shape_says() {
    for size in [32, 64, 65] {
        for row in Row::ALL {
            let blocks = row.shape().blocks(size);
            let mut contenders = on_blocks(&blocks);
            contenders.push(Box::new(asked::Session::<Judged>::new(&blocks)));
            let done = agreed(&mut contenders, &row.asked(&blocks));
            assert_eq!(done, row.expected(&blocks), "{row:?} of {size}");
            assert!(contenders.iter().all(|contender| contender.is_as_before()));
        }
    }
}
