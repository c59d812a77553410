//! Lists that are refused.

use crate::bench::*;
use umbristal::{Argument, FieldNumber, Op, Status, Store, TypeCode};

fn refused(list: &[Argument]) -> Status {
    store().get_next(list).found().unwrap_err().status()
}

#[test]
fn types_and_fields_are_those_of_the_catalogue() {
    assert_eq!(refused(&[Argument::all(TypeCode(0))]), Status::AC);
    assert_eq!(refused(&[Argument::all(TypeCode(5))]), Status::AC);
    assert_eq!(
        refused(&[Argument::all(STEP), Argument::all(STEP)]),
        Status::AC
    );
    for field in [0, 2, 5, 255] {
        let list = [Argument::test(UNIT, FieldNumber(field), Op::Ge, b"")];
        assert_eq!(refused(&list), Status::AK);
    }
}

#[test]
fn reports_refuse_and_agree() {
    let store = store();
    let ways = [
        Store::report_nested,
        Store::report_joined,
        Store::report_plain,
    ];
    for report in ways {
        let units = [Argument::all(UNIT)];
        let steps = [Argument::all(STEP)];
        let shown = report(&store, &units, &steps).unwrap();
        assert_eq!(
            shown.iter().map(|cell| cell.0).collect::<Vec<_>>(),
            [1, 3, 8]
        );
        let status = |upper: &[Argument], lower: &[Argument]| {
            report(&store, upper, lower).unwrap_err().status()
        };
        assert_eq!(status(&steps, &units), Status::AC);
        for (upper, lower) in [(&units[..], &[][..]), (&[], &steps), (&[], &[])] {
            let error = report(&store, upper, lower).unwrap_err();
            assert_eq!(error.status(), Status::AC);
            let said = error.to_string();
            assert!(said.ends_with("or a list of a report is empty"), "{said}");
        }
        assert_eq!(status(&[unit(b"0")], &steps), Status::AJ);
        assert_eq!(status(&units, &[step(b"1")]), Status::AJ);
    }
}

#[test]
fn an_insert_tests_no_field_of_what_is_new() {
    let error = store().insert(&[unit(b"08")], b"08C").unwrap_err();
    assert_eq!(error.status(), Status::AJ);
    let said = error.to_string();
    assert!(said.contains("the last argument of an insert has a test"));
}
