//! Packed decimal: request K5.

use crate::desk::*;

/// A root type of 3 bytes with a key of its first two, and fields over these two and over the third, each of the
/// value type given: key, first field, second field.
fn readings_catalogue(kind: u8, [key, over_key, behind]: [u8; 3]) -> Vec<u8> {
    let mut block = catalogue(&[[0, 3, kind, 1, 2]], &[[1, 1, 2], [1, 3, 1]]);
    (block[15], block[19], block[23]) = (key, over_key, behind);
    block
}

const ALL_PACKED: [u8; 3] = [1, 1, 1];

fn readings(kind: u8, cells: &[&[u8]]) -> Desk {
    Desk::with(readings_catalogue(kind, ALL_PACKED), table(4, 8, cells))
}

#[test]
fn bad_value_types() {
    let status = |entry: [u8; 8], field: [u8; 4]| {
        let block = [b"HDC\x00\x01\x01\x01\x00".as_slice(), &entry, &field].concat();
        judge::catalogue_check(&block)
    };
    let (entry, field) = ([0, 20, 1, 1, 16, 0, 0, 1], [1, 1, 16, 1]);
    assert_eq!(status(entry, field), 0);
    assert_eq!(status([0, 20, 1, 1, 17, 0, 0, 1], field), 20);
    assert_eq!(status([0, 20, 1, 1, 17, 0, 0, 0], field), 0);
    assert_eq!(status([0, 20, 1, 1, 16, 0, 0, 2], field), 20);
    assert_eq!(status([0, 20, 1, 1, 16, 0, 1, 1], field), 20);
    assert_eq!(status([0, 20, 1, 1, 16, 1, 0, 1], field), 20);
    assert_eq!(status([0, 20, 0, 0, 0, 0, 0, 1], field), 20);
    assert_eq!(status([0, 20, 0, 0, 0, 0, 0, 0], field), 0);
    assert_eq!(status(entry, [1, 1, 17, 1]), 20);
    assert_eq!(status(entry, [1, 1, 17, 0]), 0);
    assert_eq!(status(entry, [1, 1, 16, 2]), 20);
}

#[test]
fn stored_keys() {
    let status = |kind: u8, keys: &[[u8; 2]]| {
        let cells: Vec<[u8; 4]> = keys.iter().map(|&[a, b]| [1, a, b, 0]).collect();
        let cells: Vec<&[u8]> = cells.iter().map(|cell| cell.as_slice()).collect();
        let catalogue = readings_catalogue(kind, ALL_PACKED);
        judge::table_check(&catalogue, &table(4, 8, &cells))
    };
    // -12, -1, either zero, 1, 12.
    assert_eq!(status(1, &[[1, 0x2D], [0, 0x1B], [0, 0x0D], [0, 0x1F]]), 0);
    assert_eq!(status(1, &[[0, 0x0D], [0, 0x0C]]), 21);
    assert_eq!(status(2, &[[0, 0x0D], [0, 0x0C], [0, 0x0B]]), 0);
    assert_eq!(status(1, &[[1, 0x2C], [1, 0x2F]]), 21);
    assert_eq!(status(2, &[[1, 0x2F], [1, 0x2A]]), 0);
    assert_eq!(status(2, &[[0, 0x1D], [1, 0x2D]]), 21);
    // No number, alone: a sign 0 to 9, a digit above 9.
    for key in [[1, 0x20], [1, 0x29], [1, 0xAC], [0xA1, 0x2C], [0x1A, 0x2C]] {
        assert_eq!(status(1, &[key]), 21);
    }
    for sign in 0xA..=0xF {
        assert_eq!(status(1, &[[0x98, 0x70 | sign]]), 0);
    }
}

#[test]
fn inserts() {
    let mut desk = readings(1, &[&[1, 1, 0x2D, 0x1C], &[1, 1, 0x2C, 0x1C]]);
    assert_eq!(desk.call(ISRT, &[1, 0], &[1, 0x2F, 0]).status, 31);
    assert_eq!(desk.call(ISRT, &[1, 0], &[1, 0x2B, 0]).status, 31);
    assert_eq!(desk.call(ISRT, &[1, 0], &[1, 0x21, 0]).status, 33);
    assert_eq!(desk.call(ISRT, &[1, 0], &[0, 0x0B, 0]).status, 0);
    assert_eq!(desk.position, block(true, 1, None, false));
    assert_eq!(desk.call(ISRT, &[1, 0], &[0x99, 0x9D, 0]).status, 0);
    assert_eq!(desk.position, block(true, 0, None, false));
    // A multiple key goes behind those of equal value.
    let mut desk = readings(2, &[&[1, 1, 0x2C, 0], &[1, 1, 0x3C, 0]]);
    assert_eq!(desk.call(ISRT, &[1, 0], &[1, 0x2A, 0]).status, 0);
    assert_eq!(desk.position, block(true, 1, None, false));
}

#[test]
fn a_key_that_is_no_number_in_its_place() {
    let types = [[0, 1, 0, 0, 0], [1, 1, 1, 1, 1]];
    let mut block = catalogue(&types, &[]);
    block[23] = 1;
    // No parent before it, no room behind it.
    let mut desk = Desk::with(block.clone(), table(2, 1, &[]));
    assert_eq!(desk.call(ISRT, &[2, 0], &[0x10]).status, 11);
    let mut full = Desk::with(block, table(2, 1, &[&[1, 0]]));
    assert_eq!(full.call(ISRT, &[2, 0], &[0x10]).status, 33);
    assert_eq!(full.call(ISRT, &[2, 0], &[0x1C]).status, 32);
    assert_eq!(full.call(ISRT, &[2, 0], &[]).status, 28);
}

#[test]
fn replaced_keys_are_looked_at_as_bytes() {
    let mut desk = readings(1, &[&[1, 1, 0x2C, 0x1C]]);
    assert_eq!(desk.get(GHU, &[1, 1, 1, 1, 0x2F]).status, 0);
    assert_eq!(desk.call(REPL, &[], &[1, 0x2F, 0x1C]).status, 30);
    assert_eq!(desk.call(REPL, &[], &[1, 0x21, 0x1C]).status, 30);
    assert_eq!(desk.call(REPL, &[], &[1, 0x2C, 0xFF]).status, 0);
    assert_eq!(desk.cell(0), [1, 1, 0x2C, 0xFF]);
}

#[test]
fn a_field_that_holds_no_number() {
    let mut desk = readings(1, &[&[1, 0, 0x0C, 0x55]]);
    for operator in 1..=6 {
        let list = [1, operator, 2, 0x0C];
        assert_eq!(desk.get(GU, &list).status, 11);
    }
}

#[test]
fn values_in_lists() {
    let mut desk = readings(1, &[&[1, 1, 0x2D, 0x0D], &[1, 1, 0x2C, 0x5C]]);
    let mut status = |list: &[u8]| desk.get(GU, list).status;
    assert_eq!(status(&[1, 1, 2, 0x0F]), 0);
    assert_eq!(status(&[1, 3, 1, 1, 0x2B]), 11);
    assert_eq!(status(&[1, 4, 1, 1, 0x2B]), 0);
    assert_eq!(status(&[1, 5, 1, 1, 0x2A]), 11);
    for operator in 1..=6 {
        assert_eq!(status(&[1, operator, 1, 1, 0x29]), 25);
    }
    // Cut short; no number, before the fault of the next argument; and behind AK.
    assert_eq!(status(&[1, 1, 1, 0xFF]), 25);
    assert_eq!(status(&[1, 1, 2, 0x00, 9]), 25);
    assert_eq!(status(&[1, 1, 2, 0x0C, 9]), 24);
    assert_eq!(status(&[1, 1, 3, 0x00]), 26);
}

#[test]
fn each_field_goes_by_its_own_value_type() {
    // Bytes over a packed key, packed over a byte key.
    let cells: [&[u8]; 2] = [&[1, 1, 0x2D, 0], &[1, 1, 0x2C, 0]];
    let mut desk = Desk::with(readings_catalogue(1, [1, 0, 0]), table(4, 8, &cells));
    assert_eq!(desk.get(GU, &[1, 1, 1, 1, 0x2F]).status, 11);
    assert_eq!(desk.get(GU, &[1, 3, 1, 1, 0x2D]).status, 0);
    assert_eq!(desk.position, block(true, 1, Some(1), false));
    let cells: [&[u8]; 2] = [&[1, 1, 0x2C, 0], &[1, 0xFF, 0xFF, 0]];
    let mut desk = Desk::with(readings_catalogue(1, [0, 1, 0]), table(4, 8, &cells));
    assert_eq!(desk.get(GU, &[1, 1, 1, 1, 0x2F]).status, 0);
    assert_eq!(desk.get(GU, &[1, 2, 1, 1, 0x2F]).status, 11);
    assert_eq!(desk.call(ISRT, &[1, 0], &[1, 0x21, 0]).status, 0);
}

#[test]
fn the_longest_numbers() {
    let mut block = catalogue(&[[0, 16, 1, 1, 16]], &[]);
    block[15] = 1;
    let number = |first: u8, sign: u8| {
        let mut cell = vec![1, first];
        cell.extend([0x99; 14]);
        cell.push(0x90 | sign);
        cell
    };
    let cells = [number(0x99, 0xD), number(0x98, 0xB), number(0x99, 0xC)];
    let cells: Vec<&[u8]> = cells.iter().map(Vec::as_slice).collect();
    assert_eq!(judge::table_check(&block, &table(17, 3, &cells)), 0);
    let cells = [cells[1], cells[0]];
    assert_eq!(judge::table_check(&block, &table(17, 3, &cells)), 21);
}

#[test]
fn no_statements_for_packed_values() {
    let names = b"HDN\x00\x01\x01\x02\x00BASE    ROOT    KEY     MORE    ";
    let written = |values| judge::dbd::write(&readings_catalogue(1, values), names).is_some();
    assert!(written([0, 0, 0]));
    assert!(!written([1, 0, 0]));
    assert!(!written([0, 1, 0]));
    assert!(!written([0, 0, 1]));
}
