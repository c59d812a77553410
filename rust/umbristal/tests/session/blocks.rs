//! Blocks that are not opened, and tables that are not made: both come back as they were.

use crate::bench::blocks;
use umbristal::{Error, Status, Store};

#[test]
fn what_is_damaged_is_handed_back() {
    let (catalogue, table) = blocks();
    let cases = [
        (&catalogue[1..], &table[1..], Status::CX),
        (&catalogue[..], &table[1..], Status::TX),
        (&catalogue[..], &table[..55], Status::TX),
        (&[], &[], Status::CX),
    ];
    for (catalogue, table, status) in cases {
        let refused = Store::open(catalogue.to_vec(), table.to_vec()).unwrap_err();
        assert_eq!(refused.status(), status);
        assert_eq!(refused.to_string(), status.to_string());
        assert_eq!(Error::from(refused.clone()), Error::Refused(status));
        assert_eq!(refused.into_blocks(), (catalogue.to_vec(), table.to_vec()));
    }
}

#[test]
fn what_is_sound_comes_back_too() {
    let (catalogue, table) = blocks();
    let store = Store::open(catalogue.clone(), table.clone()).unwrap();
    assert_eq!(store.into_blocks(), (catalogue, table));
}

#[test]
fn a_table_has_4096_cells_at_most() {
    let catalogue = blocks().0;
    for cells in [0, 1, Store::MOST_CELLS] {
        let store = Store::make(catalogue.clone(), cells).unwrap();
        assert_eq!((store.cells(), store.count()), (cells, 0));
    }
    for asked in [4097, usize::MAX] {
        let refused = Store::make(catalogue.clone(), asked).unwrap_err();
        let said = format!("TX: a table has at most 4096 cells, not {asked}");
        assert_eq!(refused.to_string(), said);
        assert_eq!(refused.status(), Status::TX);
        let most = Store::MOST_CELLS;
        assert!(
            matches!(refused.reason(), Error::TooManyCells { most: m, asked: a, .. } if (m, a) == (most, asked))
        );
        assert_eq!(refused.into_catalogue(), catalogue);
    }
}

#[test]
fn a_bad_catalogue_is_told_before_too_many_cells() {
    for cells in [12, 4097] {
        let refused = Store::make(b"HDC".to_vec(), cells).unwrap_err();
        assert_eq!(refused.reason(), Error::Refused(Status::CX));
        assert_eq!(refused.into_catalogue(), b"HDC");
    }
}

/// What `unwrap` prints does not hold the blocks.
#[test]
fn errors_and_stores_print_short() {
    let (catalogue, table) = blocks();
    let refused = Store::open(catalogue.clone(), table[1..].to_vec()).unwrap_err();
    let said = "OpenError { status: TX, catalogue_bytes: 56, table_bytes: 55 }";
    assert_eq!(format!("{refused:?}"), said);
    let refused = Store::make(vec![0; 9], 1).unwrap_err();
    let said = "MakeError { reason: Refused(CX), catalogue_bytes: 9 }";
    assert_eq!(format!("{refused:?}"), said);
    let store = Store::open(catalogue, table).unwrap();
    let said = "Store { count: 9, cells: 12, place: Before(CellNumber(0)), parentage: None, held: false, .. }";
    assert_eq!(format!("{store:?}"), said);
}
