//! Data and values of another length than they must have: never cut, never filled up.

use crate::bench::*;
use umbristal::{Argument, Error, Got, Op, Status, Store};

/// What a store shows of itself.
fn seen(store: &Store) -> (Vec<u8>, String) {
    (store.table().to_vec(), format!("{store:?}"))
}

fn wrong_data(error: Error) -> (u8, usize, usize) {
    match error {
        Error::DataLength {
            type_code,
            needed,
            given,
            ..
        } => (type_code.0, needed, given),
        _ => panic!("{error:?}"),
    }
}

fn wrong_value(error: Error) -> (u8, usize, usize) {
    match error {
        Error::ValueLength {
            field,
            needed,
            given,
            ..
        } => (field.0, needed, given),
        _ => panic!("{error:?}"),
    }
}

fn refused(got: Got) -> (u8, usize, usize) {
    wrong_value(got.found().unwrap_err())
}

#[test]
fn an_insert_wants_the_length_of_its_type() {
    let mut store = store();
    assert!(store.get_hold_unique(&[step(b"14")]).found().is_ok());
    let before = seen(&store);
    for given in [0, 1, 2, 4, 120, 121, 500] {
        let data = vec![b'0'; given];
        let error = store.insert(&[Argument::all(UNIT)], &data).unwrap_err();
        assert_eq!(wrong_data(error), (1, 3, given));
        assert_eq!(error.status(), Status::AB);
        assert_eq!(seen(&store), before);
    }
    let error = store.insert(&[Argument::all(TRY)], b"S33").unwrap_err();
    assert_eq!(error.to_string(), "AB: type 3 has 2 data bytes, not 3");
    assert_eq!(
        store.insert(&[Argument::all(UNIT)], b"08C").unwrap().data,
        b"08C"
    );
}

#[test]
fn a_replace_wants_the_length_of_what_is_held() {
    let mut store = store();
    assert!(store.get_hold_unique(&[step(b"14")]).found().is_ok());
    let before = seen(&store);
    for given in [0, 2, 4, 120, 121, 500] {
        let mut data = b"14P".to_vec();
        data.resize(given, b' ');
        assert_eq!(wrong_data(store.replace(&data).unwrap_err()), (2, 3, given));
        assert_eq!(seen(&store), before);
    }
    assert_eq!(store.replace(b"14P").unwrap().data, b"14P");
    // Without hold there is no length to hold the data against.
    for data in [&b""[..], b"14P", &[0; 500]] {
        assert_eq!(store.replace(data).unwrap_err(), Error::Refused(Status::DJ));
    }
}

/// The reasons that come before AB still do (R61).
#[test]
fn what_comes_before_the_length() {
    let mut store = store();
    let mut status = |list: &[Argument]| store.insert(list, b"wrong").unwrap_err();
    assert_eq!(status(&[]), Error::Refused(Status::AH));
    assert_eq!(status(&[unit(b"07")]), Error::Refused(Status::AJ));
    let none = Argument::all(umbristal::TypeCode(5));
    assert_eq!(status(&[none]), Error::Refused(Status::AC));
    assert_eq!(
        wrong_value(status(&[unit(b"7"), Argument::all(STEP)])),
        (1, 2, 1)
    );
    // And those that come behind it do not.
    assert_eq!(
        wrong_data(status(&[unit(b"08"), Argument::all(STEP)])),
        (2, 3, 5)
    );
}

#[test]
fn a_value_wants_the_length_of_its_field() {
    let mut store = store();
    assert!(store.get_hold_unique(&[step(b"14")]).found().is_ok());
    let before = seen(&store);
    for value in [&b""[..], b"0", b"071", b"07\x02\x00"] {
        let lists: [&[Argument]; 3] = [
            &[unit(value)],
            &[unit(value), Argument::all(STEP)],
            // Behind it nothing is looked at.
            &[unit(value), Argument::all(UNIT)],
        ];
        for list in lists {
            let expected = (1, 2, value.len());
            assert_eq!(refused(store.get_next(list)), expected);
            assert_eq!(refused(store.get_unique(list)), expected);
            assert_eq!(
                wrong_value(store.insert(list, b"14P").unwrap_err()),
                expected
            );
            assert_eq!(wrong_value(store.segments(list).unwrap_err()), expected);
        }
        // Before it everything.
        let late = [
            Argument::all(NOTE),
            Argument::test(STEP, STEP_KEY, Op::Eq, value),
        ];
        assert_eq!(
            store.get_next(&late),
            Got::Refused(Error::Refused(Status::AC))
        );
    }
    let error = store.get_next(&[unit(b"7")]).found().unwrap_err();
    assert_eq!(error.to_string(), "AJ: field 1 has 2 bytes, its value 1");
    assert_eq!(error.status(), Status::AJ);
    assert_eq!(seen(&store), before);
}

/// One byte is said as one.
#[test]
fn of_one_byte() {
    let mut store = store();
    let error = store.insert(&[unit(b"07"), Argument::all(NOTE)], b"nn");
    let said = error.unwrap_err().to_string();
    assert_eq!(said, "AB: type 4 has 1 data byte, not 2");
    let tested = Argument::test(TRY, VERDICT, Op::Eq, b"PP");
    let said = store.get_next(&[tested]).found().unwrap_err().to_string();
    assert_eq!(said, "AJ: field 3 has 1 byte, its value 2");
}
