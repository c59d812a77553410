//! Packed keys and fields.

use umbristal::{Argument, Error, FieldNumber, Op, Status, Store, TypeCode};

const READING: TypeCode = TypeCode(1);
const PART: TypeCode = TypeCode(2);
const TORQUE: FieldNumber = FieldNumber(1);
const NUMBER: FieldNumber = FieldNumber(2);

/// Readings by their torque, two bytes packed, with parts by number.
fn store() -> Store {
    let mut catalogue = b"HDC\x00\x01\x02\x02\x00".to_vec();
    catalogue.extend([0, 3, 1, 1, 2, 0, 0, 1]);
    catalogue.extend([1, 1, 0, 0, 0, 0, 0, 0]);
    catalogue.extend([1, 1, 2, 1]);
    catalogue.extend([2, 1, 1, 0]);
    let mut store = Store::make(catalogue, 4).unwrap();
    for torque in [[0x01, 0x2C], [0x01, 0x2D], [0x00, 0x0B]] {
        let data = [torque[0], torque[1], b'A'];
        store.insert(&[Argument::all(READING)], &data).unwrap();
    }
    store
}

fn torque(op: Op, value: &[u8]) -> Argument<'_> {
    Argument::test(READING, TORQUE, op, value)
}

#[test]
fn by_their_numbers() {
    let mut store = store();
    let data: Vec<u8> = store.table()[8..].iter().copied().take(12).collect();
    assert_eq!(data, b"\x01\x01\x2DA\x01\x00\x0BA\x01\x01\x2CA");
    let found = store.get_unique(&[torque(Op::Eq, &[0x01, 0x2F])]).found();
    assert_eq!(found.unwrap().data, [0x01, 0x2C, b'A']);
    let found = store.get_unique(&[torque(Op::Ge, &[0x00, 0x0C])]).found();
    assert_eq!(found.unwrap().data, [0x00, 0x0B, b'A']);
}

#[test]
fn what_is_refused() {
    let mut store = store();
    let mut insert = |data: &[u8]| {
        let done = store.insert(&[Argument::all(READING)], data);
        done.unwrap_err()
    };
    assert_eq!(insert(&[0x01, 0x2E, b'B']), Error::Refused(Status::II));
    let error = insert(&[0x01, 0x29, b'B']);
    assert_eq!(error, Error::Refused(Status::PD));
    assert_eq!(error.to_string(), "PD: the packed key is no number");
    let error = store.get_next(&[torque(Op::Ne, &[0xA1, 0x2C])]).found();
    assert_eq!(error.unwrap_err(), Error::Refused(Status::AJ));
}

/// The first fault is the reason: a value that is no number, or a length.
#[test]
fn no_number_beside_a_wrong_length() {
    let mut store = store();
    let mut reason = |torques: &[u8], number: &[u8]| {
        let part = Argument::test(PART, NUMBER, Op::Eq, number);
        let list = [torque(Op::Eq, torques), part];
        store.get_next(&list).found().unwrap_err()
    };
    assert_eq!(reason(&[0, 0], b"12"), Error::Refused(Status::AJ));
    let error = reason(&[0x01, 0x2C], b"12");
    assert!(matches!(error, Error::ValueLength { field: NUMBER, .. }));
    let error = reason(&[0], b"12");
    assert!(matches!(error, Error::ValueLength { field: TORQUE, .. }));
}
