//! The header for C, the declarations for Rust and the functions that the crates export say the same. Nothing else
//! holds them together: a linker looks at names alone.

mod constants;
mod copybook;
mod faults;
mod header;
mod signature;
mod source;

use signature::{differences, Signature, Stated};
use std::fs;
use std::path::{Path, PathBuf};

const HEADER: &str = "include/umbristal.h";
const DECLARED: &str = "rust/linked/src";
/// What the comparison compares; the helpers and the functions for COBOL have tests of their own beside this one.
const COMPARED: &str = "rust/linked/src/lib.rs";
const BESIDE: [&str; 2] = ["rust/linked/src/parts.rs", "rust/linked/src/cobol.rs"];
const TABLE: &str = "rust/face/src/lib.rs";
const CRATES: &str = "crates";

fn repository() -> PathBuf {
    Path::new(env!("CARGO_MANIFEST_DIR")).join("../..")
}

fn text(file: &str) -> String {
    fs::read_to_string(repository().join(file)).unwrap_or_else(|error| panic!("{file}: {error}"))
}

/// Every file of the crates' sources, wherever in them a function is exported.
fn sources() -> Vec<PathBuf> {
    let mut folders: Vec<PathBuf> = entries(&repository().join(CRATES))
        .into_iter()
        .map(|each| each.join("src"))
        .filter(|each| each.is_dir())
        .collect();
    let mut files = Vec::new();
    while let Some(folder) = folders.pop() {
        for entry in entries(&folder) {
            match entry.is_dir() {
                true => folders.push(entry),
                false => files.push(entry),
            }
        }
    }
    files.retain(|file| file.extension().is_some_and(|ending| ending == "rt"));
    files
}

fn entries(folder: &Path) -> Vec<PathBuf> {
    let read = fs::read_dir(folder).unwrap_or_else(|error| panic!("{folder:?}: {error}"));
    read.map(|entry| entry.expect("an entry of a folder").path())
        .collect()
}

fn declared() -> Result<Vec<Signature>, String> {
    let mut all = source::declared(&text(COMPARED))?;
    for file in BESIDE {
        all.extend(source::declared(&text(file))?);
    }
    Ok(all)
}

fn exported() -> Result<Vec<Signature>, String> {
    let mut all = Vec::new();
    for file in sources() {
        let text = fs::read_to_string(&file).unwrap_or_else(|error| panic!("{file:?}: {error}"));
        all.extend(source::exported(&text)?);
    }
    Ok(all)
}

fn read(place: &'static str, read: Result<Vec<Signature>, String>) -> Stated {
    let functions = read.unwrap_or_else(|fault| panic!("{place}: {fault}"));
    assert!(!functions.is_empty(), "{place}: no function is found");
    Stated { place, functions }
}

#[test]
fn header_declarations_and_exports_agree() {
    let header = read(HEADER, header::functions(&text(HEADER)));
    let declared = read(DECLARED, declared());
    let exported = read(CRATES, exported());
    let mut found = differences(&header, &declared);
    found.extend(differences(&header, &exported));
    assert!(found.is_empty(), "{}", found.join("\n"));
}

#[test]
fn every_function_is_in_the_table() {
    let declared = read(COMPARED, source::declared(&text(COMPARED)));
    let table = text(TABLE);
    for function in declared.functions {
        let name = function.name.trim_start_matches("umbristal_");
        let field = format!("pub {name}: ");
        assert!(
            table.contains(&field),
            "{}: no `{name}` in `Functions` of {TABLE}, so that nothing compares it",
            function.name
        );
    }
}
