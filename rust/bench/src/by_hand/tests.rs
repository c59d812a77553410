//! The hand-written Rust answers as the store does, on damaged blocks too: the checks are the same.

use super::ByHand;
use crate::calls::{Measured, Proved};
use crate::sample::Sample;
use face::number::GN;
use face::FRESH;

#[derive(PartialEq, Eq, Debug)]
struct Left {
    got: u64,
    shown: [u64; 3],
    bytes: Vec<u8>,
}

/// All that GN and the reports leave behind.
fn left<F: Measured>(catalogue: &[u8], table: &[u8]) -> Left {
    let (mut table, mut position) = (table.to_vec(), FRESH.to_vec());
    let (mut area, mut out) = (vec![9; 120], vec![9; 30]);
    let functions = F::FUNCTIONS;
    let got = (functions.call)(catalogue, &mut table, &mut position, GN, &[], &mut area);
    let reports = [
        functions.report_nested,
        functions.report_joined,
        functions.report_plain,
    ];
    let shown = reports.map(|report| {
        let (list1, list2) = ([1, 1, 4, b'A'], [3, 1, 3, b'P']);
        report(catalogue, &table, &list1, &list2, &mut out)
    });
    Left {
        got,
        shown,
        bytes: [table, position, area, out].concat(),
    }
}

#[test]
fn as_the_store_on_damaged_blocks() {
    let sample = Sample::new(20);
    let blocks = [sample.catalogue, sample.table].concat();
    let seam = blocks.len() - (8 + (20 + 37) * 24);
    for byte in 0..blocks.len() {
        for damage in [1, 2, 3, 0x80] {
            let mut blocks = blocks.clone();
            blocks[byte] ^= damage;
            let (catalogue, table) = blocks.split_at(seam);
            let (expected, actual) = (
                left::<Proved>(catalogue, table),
                left::<ByHand>(catalogue, table),
            );
            assert_eq!(actual, expected, "byte {byte}, {damage}");
        }
    }
}
