//! What the READMEs show of the crate, run on the bench table; `tools/manual` cuts it out.

use umbristal::{Argument, Catalogue, Error, FieldNumber, Op, Status, Store, TypeCode};

const UNIT: TypeCode = TypeCode(1);
const STEP: TypeCode = TypeCode(2);
const TRY: TypeCode = TypeCode(3);
const UNIT_KEY: FieldNumber = FieldNumber(1);
const STEP_KEY: FieldNumber = FieldNumber(2);

#[test]
fn the_readme_shows_this() -> Result<(), Box<dyn std::error::Error>> {
    std::env::set_current_dir("../../crates/lister/data")?;
    // [store]
    let mut store = Store::open(std::fs::read("CAT.HDC")?, std::fs::read("TAB.HDT")?)?;
    let step = [
        Argument::test(UNIT, UNIT_KEY, Op::Eq, b"07"),
        Argument::test(STEP, STEP_KEY, Op::Eq, b"14"),
    ];
    let found = store.get_unique(&step).found()?; // GU; a miss is an error here
    assert_eq!(found.data, b"14T");
    store.insert(&[Argument::all(TRY)], b"S3")?; // ISRT, under that step
    for found in store.segments(&[Argument::all(TRY)])? {
        println!("{} {:?}", found.cell, found.data); // what GN shows, and the store is only read
    }
    let error = store.insert(&[Argument::all(UNIT)], b"07Z").unwrap_err();
    assert_eq!(error.to_string(), "II: a twin has this unique key");
    // [end]
    assert_eq!(store.count(), 10);
    replaced(&mut store)
}

fn replaced(store: &mut Store) -> Result<(), Box<dyn std::error::Error>> {
    // [replace]
    let step = [
        Argument::test(UNIT, UNIT_KEY, Op::Eq, b"07"),
        Argument::test(STEP, STEP_KEY, Op::Eq, b"14"),
    ];
    let mut data = store.get_hold_unique(&step).found()?.to_owned().data; // GHU
    data[2] = b'P';
    match store.replace(&data) {
        Ok(segment) => println!("now {:?}", segment.data), // REPL
        Err(Error::Refused(Status::DA)) => println!("the key must stay"),
        Err(other) => return Err(other.into()),
    }
    // [end]
    assert_eq!(store.get_unique(&step).found()?.data, b"14P");
    Ok(())
}

#[test]
fn the_manual_shows_this() -> Result<(), Box<dyn std::error::Error>> {
    let folder = std::path::Path::new(env!("CARGO_MANIFEST_DIR")).join("../..");
    let statements = folder.join("examples/bench.dbd");
    let table = folder.join("crates/lister/data/TAB.HDT");
    // [names]
    let catalogue = Catalogue::from_dbd(&std::fs::read(statements)?)?; // an error says: line N, and what is wrong
    let mut store = catalogue.open(std::fs::read(table)?)?;
    let step = [
        store.argument("UNIT", "UNO", Op::Eq, b"07")?,
        store.argument("STEP", "SNO", Op::Eq, b"14")?,
    ];
    assert_eq!(store.get_unique(&step).found()?.data, b"14T");
    let unknown = store.argument("STEP", "VERDIKT", Op::Eq, b"P").unwrap_err();
    assert_eq!(
        unknown.to_string(),
        "AK: segment STEP has no field VERDIKT; there is SNO, VERDICT"
    );
    // [end]
    let tries = [store.all("TRY")?];
    assert_eq!(store.segments(&tries)?.count(), 3);
    assert_eq!(store.segment_name(TypeCode(4)), Some("NOTE"));
    assert_eq!(
        store.all("STOP").unwrap_err().to_string(),
        "AC: no segment STOP; there is UNIT, STEP, TRY, NOTE"
    );
    Ok(())
}
