//! The cases B1 to B10, and those that are run also.

use crate::bench::*;
use umbristal::{Argument, CellNumber, Error, Got, Miss, Op, Place, Status, Store};

fn cell_of(got: Got) -> u16 {
    got.found().unwrap().cell.0
}

#[test]
fn b1_the_listing() {
    let mut store = store();
    let mut statuses = Vec::new();
    while let Some(segment) = store.get_next(&[]).segment().unwrap() {
        statuses.push((segment.cell.0, segment.status.letters()));
    }
    let expected = ["--", "--", "--", "GA", "--", "--", "GA", "GA", "--"];
    assert_eq!(statuses, (0..).zip(expected).collect::<Vec<_>>());
}

/// R63.
#[test]
fn get_next_after_gb_starts_over() {
    let mut store = store();
    let pass = |store: &mut Store| {
        let mut cells = Vec::new();
        loop {
            match store.get_hold_next(&[]) {
                Got::Segment(segment) => cells.push(segment.cell.0),
                nothing => return (cells, nothing.status()),
            }
        }
    };
    for _ in 0..3 {
        assert_eq!(pass(&mut store), ((0..9).collect(), Status::GB));
        assert_eq!(store.place(), Place::Before(CellNumber(0)));
        assert_eq!((store.parentage(), store.is_held()), (None, false));
    }
    let within = store.get_next_within_parent(&[]);
    assert_eq!(within, Got::Nothing(Miss::GP));
    assert_eq!(store.delete().unwrap_err().status(), Status::DJ);
    let first = store.get_next(&[]).found().unwrap();
    assert_eq!((first.cell.0, first.status), (0, Status::Blank));
}

#[test]
fn what_iterates_does_not_start_over() {
    let store = store();
    let mut segments = store.segments(&[]).unwrap();
    assert_eq!(segments.by_ref().count(), 9);
    assert_eq!((segments.next(), segments.next()), (None, None));
}

#[test]
fn get_next_after_ge_does_not() {
    let mut store = store();
    assert_eq!(cell_of(store.get_hold_unique(&[unit(b"09")])), 7);
    let none = store.get_next(&[step(b"13")]);
    assert_eq!(none, Got::Nothing(Miss::GE));
    assert_eq!(store.place(), Place::On(CellNumber(7)));
    assert_eq!(
        (store.parentage(), store.is_held()),
        (Some(CellNumber(7)), false)
    );
    assert_eq!(cell_of(store.get_next(&[])), 8);
}

#[test]
fn b2_get_next_by_verdict() {
    let mut store = store();
    let list = [Argument::test(TRY, VERDICT, Op::Eq, b"T")];
    assert_eq!(cell_of(store.get_next(&list)), 4);
    assert_eq!(store.get_next(&list), Got::Nothing(Miss::GE));
    assert_eq!(store.place(), Place::On(CellNumber(4)));
}

#[test]
fn b3_get_unique_along_the_position() {
    let mut store = store();
    assert_eq!(cell_of(store.get_unique(&[step(b"14")])), 3);
    assert_eq!(cell_of(store.get_unique(&[unit(b"09")])), 7);
    assert_eq!(cell_of(store.get_unique(&[step(b"14")])), 8);
}

#[test]
fn b4_insert_along_the_position() {
    for (start, becomes) in [(5, 6), (7, 9)] {
        let mut store = store();
        while store.place() != Place::On(CellNumber(start)) {
            store.get_next(&[]).found().unwrap();
        }
        let inserted = store.insert(&[Argument::all(TRY)], b"S3").unwrap();
        assert_eq!(inserted.cell.0, becomes);
        let inserted = inserted.to_owned();
        assert_eq!(store.count(), 10);
        let found = store.segment_at(CellNumber(becomes)).unwrap();
        assert_eq!(
            (found.type_code, found.level, found.data),
            (TRY, 3, &b"S3"[..])
        );
        assert_eq!(found.to_owned(), inserted);
    }
}

#[test]
fn b5_and_b6_keys_of_inserts() {
    let mut store = store();
    let twin = store.insert(&[unit(b"07"), Argument::all(STEP)], b"14X");
    assert_eq!(twin.unwrap_err().status(), Status::II);
    let inserted = store.insert(&[Argument::all(UNIT)], b"08C").unwrap();
    assert_eq!(inserted.cell.0, 7);
}

#[test]
fn b7_and_b8_delete() {
    let mut store = store();
    assert_eq!(cell_of(store.get_hold_unique(&[step(b"14")])), 3);
    assert!(store.is_held());
    assert_eq!(store.parentage(), Some(CellNumber(3)));
    assert_eq!(store.delete().unwrap().removed, 3);
    assert_eq!(
        (store.count(), store.place()),
        (6, Place::Before(CellNumber(3)))
    );
    let within = store.get_next_within_parent(&[]);
    assert_eq!(within, Got::Nothing(Miss::GP));
    let note = store.get_next(&[]).found().unwrap();
    assert_eq!(
        (note.cell.0, note.type_code, note.status),
        (3, NOTE, Status::Blank)
    );
    assert_eq!(store.delete().unwrap_err().status(), Status::DJ);
}

#[test]
fn b9_replace() {
    let mut store = store();
    assert_eq!(cell_of(store.get_hold_unique(&[step(b"14")])), 3);
    assert_eq!(store.replace(b"15P").unwrap_err().status(), Status::DA);
    let replaced = store.replace(b"14P").unwrap();
    assert_eq!((replaced.cell.0, replaced.data), (3, &b"14P"[..]));
    assert_eq!(store.replace(b"14P").unwrap_err().status(), Status::DJ);
}

#[test]
fn b10_the_empty_table_and_no_table() {
    let mut store = Store::make(blocks().0, 12).unwrap();
    for _ in 0..2 {
        assert_eq!(store.get_next(&[]).status(), Status::GB);
    }
    let mut none = Store::make(blocks().0, 0).unwrap();
    let error = none.insert(&[Argument::all(UNIT)], b"07A").unwrap_err();
    assert_eq!(error, Error::Refused(Status::FX));
}
