//! A get that finds nothing, and what is tried after it.

use crate::bench::*;
use umbristal::{Argument, Error, Got, Miss, Status, Store};

/// A step under a unit by two calls, as a program does that is told a unit's key.
fn add(store: &mut Store, key: &[u8]) -> Result<u16, Error> {
    store.get_unique(&[unit(key)]).found()?;
    let added = store.insert(&[Argument::all(STEP)], b"15P")?;
    Ok(added.cell.0)
}

/// Unit 08 is not there. Without `found` the step would land in unit 07.
#[test]
fn a_miss_is_passed_on_before_the_insert() {
    let mut store = store();
    assert_eq!(cell_of_unit(&mut store, b"07"), 0);
    let table = store.table().to_vec();
    assert_eq!(add(&mut store, b"08"), Err(Error::Missed(Miss::GE)));
    assert_eq!(store.table(), table);
    assert_eq!(add(&mut store, b"09"), Ok(9));
}

fn cell_of_unit(store: &mut Store, key: &[u8]) -> u16 {
    store.get_unique(&[unit(key)]).found().unwrap().cell.0
}

#[test]
fn an_insert_without_parent_is_an_error() {
    let mut store = store();
    let (table, list) = (store.table().to_vec(), [unit(b"08"), Argument::all(STEP)]);
    assert!(store.get_hold_unique(&[unit(b"07")]).found().is_ok());
    let error = store.insert(&list, b"15P").unwrap_err();
    assert_eq!(error, Error::NoParent);
    assert_eq!(error.to_string(), "GE: there is no parent to insert under");
    assert_eq!(error.status(), Status::GE);
    // GE clears the hold and changes nothing else (R62).
    assert_eq!((store.table(), store.is_held()), (&table[..], false));
}

#[test]
fn the_three_misses() {
    let mut store = Store::make(blocks().0, 1).unwrap();
    let end = store.get_next(&[]);
    assert_eq!(end, Got::Nothing(Miss::GB));
    assert_eq!((end.status(), end.segment()), (Status::GB, Ok(None)));
    let none = store.get_unique(&[]);
    assert_eq!(none.found(), Err(Error::Missed(Miss::GE)));
    let without = store.get_next_within_parent(&[]);
    assert_eq!(without.found(), Err(Error::Missed(Miss::GP)));
    let said = [Miss::GB, Miss::GE, Miss::GP].map(|miss| Error::from(miss).to_string());
    let expected = [
        "GB: no segment is left; get-next starts over",
        "GE: no segment matches",
        "GP: there is no parentage",
    ];
    assert_eq!(said, expected);
}

/// A refusal is an error however the segment is asked for; a miss is one only by `found`.
#[test]
fn a_refusal_is_no_miss() {
    let mut store = store();
    let none = [Argument::all(umbristal::TypeCode(5))];
    let error = Error::Refused(Status::AC);
    let gets = [
        Store::get_unique,
        Store::get_next,
        Store::get_next_within_parent,
        Store::get_hold_unique,
        Store::get_hold_next,
        Store::get_hold_next_within_parent,
    ];
    for get in gets {
        let got = get(&mut store, &none);
        assert_eq!(got, Got::Refused(error));
        assert_eq!(got.status(), Status::AC);
        assert_eq!((got.found(), got.segment()), (Err(error), Err(error)));
    }
    let first = store.get_next(&[]);
    let root = first.found().unwrap();
    assert_eq!(first.segment(), Ok(Some(root)));
    assert_eq!((root.cell.0, first.status()), (0, Status::Blank));
}
