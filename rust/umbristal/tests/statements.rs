//! Catalogues from DBD statements, and arguments by name.

use umbristal::{Catalogue, DbdFault, Error, Op, Status, Store, TypeCode};

const TEXT: &str = "\
DBD NAME=PLANT
SEGM NAME=UNIT,PARENT=0,BYTES=4
FIELD NAME=STATE,BYTES=1,START=4,TYPE=C
FIELD NAME=(NUMBER,SEQ,M),BYTES=3,START=1,TYPE=C
SEGM NAME=STEP,PARENT=UNIT,BYTES=2
FIELD NAME=STATE,BYTES=2,START=1,TYPE=C
";

fn plant() -> Catalogue {
    Catalogue::from_dbd(TEXT.as_bytes()).expect("the statements are right")
}

/// The text with one line in the place of another.
fn with(line: usize, new: &str) -> String {
    let mut lines: Vec<&str> = TEXT.lines().collect();
    lines[line - 1] = new;
    lines.join("\n")
}

#[test]
fn what_is_read_is_written_again() {
    let plant = plant();
    assert_eq!(plant.to_dbd(), TEXT.as_bytes());
    assert_eq!(plant.base(), "PLANT");
    assert_eq!(plant.segments().collect::<Vec<_>>(), ["UNIT", "STEP"]);
    assert_eq!(plant.block()[..8], *b"HDC\x00\x01\x02\x03\x00");
    assert_eq!(plant.names()[..16], *b"HDN\x00\x01\x02\x03\x00PLANT   ");
    let (block, names) = plant.clone().into_blocks();
    assert_eq!(Catalogue::from_blocks(block, names), Ok(plant));
}

#[test]
fn blocks_that_no_statements_give_are_handed_back() {
    let (block, mut names) = plant().into_blocks();
    names[8] = b'1';
    let refused = Catalogue::from_blocks(block.clone(), names.clone()).unwrap_err();
    assert_eq!(refused.status(), Status::CX);
    assert_eq!(
        refused.to_string(),
        "CX: no statements give this catalogue with these names"
    );
    assert_eq!(refused.into_blocks(), (block, names));
}

#[test]
fn an_error_has_the_line_and_what_is_wrong_with_it() {
    let cases = [
        (with(2, "SEGM NAME=UNIT,PARENT=0"), DbdFault::Statement, 2),
        (
            with(4, "FIELD NAME=STATE,BYTES=3,START=1,TYPE=C"),
            DbdFault::Name,
            4,
        ),
        (
            with(5, "SEGM NAME=STEP,PARENT=UNITS,BYTES=2"),
            DbdFault::Parent,
            5,
        ),
        (
            with(6, "FIELD NAME=STATE,BYTES=2,START=2,TYPE=C"),
            DbdFault::Rule,
            6,
        ),
        ("DBD NAME=PLANT\n".to_string(), DbdFault::Statement, 2),
    ];
    for (text, fault, line) in cases {
        let error = Catalogue::from_dbd(text.as_bytes()).unwrap_err();
        assert_eq!((error.fault(), error.line()), (fault, line), "{text}");
        let said = error.to_string();
        assert!(said.starts_with(&format!("line {line}: ")), "{said}");
        let shown = text
            .lines()
            .nth(line - 1)
            .unwrap_or("end without a DBD and a SEGM");
        assert!(said.ends_with(shown), "{said}");
    }
}

#[test]
fn arguments_are_built_by_name() -> Result<(), Error> {
    let mut store = plant().make(4)?;
    store.insert(&[store.all("UNIT")?], b"007A")?;
    let unit = store.argument("UNIT", "NUMBER", Op::Eq, b"007")?;
    store.insert(&[unit, store.all("STEP")?], b"P1")?;
    assert_eq!(store.count(), 2);
    // Each segment's own field of that name is meant.
    let [of_unit, of_step] = ["UNIT", "STEP"].map(|segment| store.field(segment, "STATE"));
    assert_eq!([of_unit?.0, of_step?.0], [1, 3]);
    let clone = store.clone();
    assert_eq!(clone.segment_name(TypeCode(2)), Some("STEP"));
    assert_eq!(clone.segment_name(TypeCode(3)), None);
    Ok(())
}

#[test]
fn a_name_that_is_none_is_an_error_with_those_that_are() {
    let store = plant().make(1).expect("there can be one cell");
    let said =
        |name: Result<_, umbristal::UnknownName>| name.map(|_: u8| ()).unwrap_err().to_string();
    let code = |name| store.type_code(name).map(|code| code.0);
    assert_eq!(
        said(code("unit")),
        "AC: no segment unit; there is UNIT, STEP"
    );
    let field = store.field("STEP", "NUMBER").map(|field| field.0);
    assert_eq!(
        said(field),
        "AK: segment STEP has no field NUMBER; there is STATE"
    );
    let (block, _) = plant().into_blocks();
    let nameless = Store::make(block, 1).expect("there can be one cell");
    let code = nameless.type_code("UNIT").map(|code| code.0);
    assert_eq!(said(code), "AC: no segment UNIT; the store knows no names");
}
