//! The functions for COBOL against the judge: what the comparison lends as a slice goes into the front of a block of the
//! size that they take, and what they leave there comes back.

mod blocks;
mod fronts;
mod too_long;

use compare::JUDGE;
use face::Functions;

const BY_REFERENCE: Functions = face::functions!("by reference", fronts);

#[test]
fn the_functions_by_reference_do_what_the_judge_says() {
    match compare::run(&JUDGE, &BY_REFERENCE, 14, 100_000) {
        Ok(tally) => assert!(tally.calls() >= 100_000),
        Err(difference) => panic!("{difference}"),
    }
}

/// One segment type of 2 bytes, and a table of 3 free cells.
const CATALOGUE: [u8; 16] = *b"HDC\x00\x01\x01\x00\x00\x00\x02\x00\x00\x00\x00\x00\x00";
const TABLE: [u8; 17] = *b"HDT\x00\x01\x03\x00\x00\0\0\0\0\0\0\0\0\0";

/// The status of the check with these lengths in `ask`.
fn checked(lengths: [usize; 5]) -> u8 {
    let (cat, tab) = (blocks::Block::of(&CATALOGUE), blocks::Block::of(&TABLE));
    let mut told = blocks::UNTOLD;
    let ask = blocks::ask(0, lengths);
    linked::cobol::cobol_check(&ask, &cat.bytes, &tab.bytes, &mut told);
    blocks::status_alone(told)
}

#[test]
fn every_byte_of_a_length_counts() {
    use face::status::{BLANK, CX, TX};
    let (cat, tab) = (CATALOGUE.len(), TABLE.len());
    assert_eq!(checked([cat, tab, 0, 0, 0]), BLANK);
    assert_eq!(checked([cat + 1, tab, 0, 0, 0]), CX);
    assert_eq!(checked([cat, tab - 1, 0, 0, 0]), TX);
    for above in [1 << 8, 1 << 16, 1 << 24, 0xFF << 24] {
        assert_eq!(checked([cat + above, tab, 0, 0, 0]), CX, "{above}");
        assert_eq!(checked([cat, tab + above, 0, 0, 0]), TX, "{above}");
    }
}
