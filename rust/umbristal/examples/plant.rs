//! `plant FOLDER UNIT STEP` records a step of a unit: it loads the blocks of the folder or makes them, saves them, and lists
//! what is there.

use std::error::Error;
use std::path::Path;
use std::process::ExitCode;
use std::{env, fs, io};
use umbristal::{Argument, FieldNumber, Op, Store, TypeCode};

const UNIT: TypeCode = TypeCode(1);
const STEP: TypeCode = TypeCode(2);
const UNIT_KEY: FieldNumber = FieldNumber(1);

/// Units and beneath them steps, three bytes each. The first two are its unique key, which is also a field.
const CATALOGUE: &[u8] = b"HDC\x00\x01\x02\x02\x00\
    \x00\x03\x01\x01\x02\x00\x00\x00\
    \x01\x03\x01\x01\x02\x00\x00\x00\
    \x01\x01\x02\x00\
    \x02\x01\x02\x00";

fn main() -> ExitCode {
    let arguments: Vec<String> = env::args().skip(1).collect();
    let [folder, unit, step] = &arguments[..] else {
        eprintln!("plant FOLDER UNIT STEP");
        return ExitCode::from(2);
    };
    match run(Path::new(folder), unit.as_bytes(), step.as_bytes()) {
        Ok(listing) => {
            print!("{listing}");
            ExitCode::SUCCESS
        }
        Err(error) => {
            eprintln!("plant: {error}");
            ExitCode::FAILURE
        }
    }
}

/// The whole work; what is refused is not saved.
fn run(folder: &Path, unit: &[u8], step: &[u8]) -> Result<String, Box<dyn Error>> {
    let (catalogue, table) = (folder.join("CAT.HDC"), folder.join("TAB.HDT"));
    let mut store = match table.exists() {
        true => Store::open(fs::read(&catalogue)?, fs::read(&table)?)?,
        false => Store::make(CATALOGUE.to_vec(), 100)?,
    };
    record(&mut store, unit, step)?;
    save(&catalogue, store.catalogue())?;
    save(&table, store.table())?;
    listing(&store)
}

/// The step is put under its unit, and the unit is put in first where it is not there yet.
fn record(store: &mut Store, unit: &[u8], step: &[u8]) -> Result<(), umbristal::Error> {
    let key = &unit[..unit.len().min(2)];
    let this = Argument::test(UNIT, UNIT_KEY, Op::Eq, key);
    if store.get_unique(&[this]).segment()?.is_none() {
        store.insert(&[Argument::all(UNIT)], unit)?;
    }
    store.insert(&[this, Argument::all(STEP)], step)?;
    Ok(())
}

/// Written beside and then renamed, so that a crash leaves the old block or the new one.
fn save(path: &Path, block: &[u8]) -> io::Result<()> {
    let beside = path.with_extension("NEW");
    fs::write(&beside, block)?;
    fs::rename(beside, path)
}

/// A line for each segment, further to the right by its level.
fn listing(store: &Store) -> Result<String, Box<dyn Error>> {
    let mut text = String::new();
    for segment in store.segments(&[])? {
        let indent = "  ".repeat(usize::from(segment.level) - 1);
        text += &format!("{indent}{}\n", String::from_utf8_lossy(segment.data));
    }
    Ok(text)
}
