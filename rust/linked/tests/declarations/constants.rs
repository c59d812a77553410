//! The numbers of the header, of the table of functions, and of the judge, which has them by its own reading.

use crate::header::{defined, enumerators};
use crate::{text, HEADER};
use judge::{calls, Status};

type Numbers = Vec<(String, u8)>;

fn owned(numbers: &[(&str, u8)]) -> Numbers {
    let each = numbers.iter().map(|&(name, number)| (name.into(), number));
    each.collect()
}

/// The calls of the judge, under the names that it has for them.
fn calls_of_the_judge() -> Numbers {
    owned(&[
        ("GU", calls::GU),
        ("GN", calls::GN),
        ("GNP", calls::GNP),
        ("GHU", calls::GHU),
        ("GHN", calls::GHN),
        ("GHNP", calls::GHNP),
        ("ISRT", calls::ISRT),
        ("REPL", calls::REPL),
        ("DLET", calls::DLET),
    ])
}

fn statuses_of_the_judge() -> Numbers {
    let letters = |status: Status| match status {
        Status::Blank => "BLANK",
        other => other.letters(),
    };
    let each = Status::ALL.map(|status| (letters(status), status.number()));
    owned(&each)
}

#[test]
fn the_calls() {
    let header = enumerators(&text(HEADER), "umbristal_calls");
    assert_eq!(owned(face::number::ALL), header, "face against {HEADER}");
    assert_eq!(calls_of_the_judge(), header, "judge against {HEADER}");
}

#[test]
fn the_statuses() {
    let header = enumerators(&text(HEADER), "umbristal_statuses");
    assert_eq!(owned(face::status::ALL), header, "face against {HEADER}");
    assert_eq!(statuses_of_the_judge(), header, "judge against {HEADER}");
}

#[test]
fn the_position_block() {
    let header = text(HEADER);
    let size = defined(&header, "UMBRISTAL_POSITION_SIZE");
    let fresh = defined(&header, "UMBRISTAL_POSITION_FRESH");
    assert_eq!(face::POSITION_SIZE.to_string(), size);
    let written = format!("{:?}", face::FRESH);
    assert_eq!(written.replace('[', "{ ").replace(']', " }"), fresh);
    assert_eq!(face::FRESH, judge::FRESH);
}
