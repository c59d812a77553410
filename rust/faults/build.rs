//! Makes the faulty copies: for each change the judge's sources are taken as they are, one place is changed, and
//! the whole becomes a module. So the judge itself carries no trace of them, and a change whose place is gone
//! or no longer the only one stops the build.

use std::env;
use std::fs;
use std::path::Path;

#[path = "src/changes.rs"]
mod changes;

use changes::{Change, CHANGES};

const MODULES: [&str; 12] = [
    "lib",
    "arguments",
    "calls",
    "catalogue",
    "dbd",
    "forest",
    "lent",
    "listing",
    "position",
    "reports",
    "status",
    "values",
];

fn main() {
    let sources = Path::new("../judge/src");
    println!("cargo:rerun-if-changed={}", sources.display());
    println!("cargo:rerun-if-changed=src/changes.rs");
    println!("cargo:rerun-if-changed=build.rs");
    let texts: Vec<String> = MODULES
        .iter()
        .map(|module| read(&sources.join(format!("{module}.rs"))))
        .collect();
    let mut all = copy("faultless", &texts, None);
    let (mut stores, mut readers) = (Vec::new(), Vec::new());
    for (number, change) in CHANGES.iter().enumerate() {
        let module = format!("fault_{number}");
        all += &copy(&module, &texts, Some(change));
        match change.module {
            "dbd" => readers.push(format!("{module}::STATEMENTS")),
            _ => stores.push(format!("{module}::STORE")),
        }
    }
    all += &format!(
        "/// The faulty copies, in the order of the changes.\n\
         pub const FAULTY: [face::Functions; {}] = [{}];\n\
         /// Those of the reader and the writer of DBD statements.\n\
         pub const FAULTY_STATEMENTS: [face::Statements; {}] = [{}];\n",
        stores.len(),
        stores.join(", "),
        readers.len(),
        readers.join(", "),
    );
    let folder = env::var("OUT_DIR").expect("cargo names it");
    fs::write(Path::new(&folder).join("copies.rs"), all).expect("the folder is cargo's own");
}

fn read(path: &Path) -> String {
    let text = fs::read_to_string(path).unwrap_or_else(|error| panic!("{path:?}: {error}"));
    flat(&text)
}

/// The text without comment lines and line breaks, so that a change does not depend on the layout.
fn flat(text: &str) -> String {
    text.lines()
        .filter(|line| !line.trim_start().starts_with("//"))
        .flat_map(str::split_whitespace)
        .collect::<Vec<_>>()
        .join(" ")
}

/// A module with the judge's sources in it, changed in one place, and a table of its functions.
fn copy(module: &str, texts: &[String], change: Option<&Change>) -> String {
    let mut texts = texts.to_vec();
    if let Some(change) = change {
        let index = MODULES
            .iter()
            .position(|module| *module == change.module)
            .unwrap_or_else(|| panic!("{}: no module {}", change.name, change.module));
        texts[index] = changed(&texts[index], change);
    }
    let copied = touched(&texts, change);
    let mut whole = texts[0].clone();
    for (name, text) in MODULES.iter().zip(&texts).skip(1) {
        let declared = format!("pub mod {name};");
        assert!(whole.contains(&declared), "lib.rs declares {name}");
        let module = if copied.contains(name) {
            format!("pub mod {name} {{\n{text}\n}}\n")
        } else {
            format!("pub use judge::{name};\n")
        };
        whole = whole.replace(&declared, &module);
    }
    let name = change.map_or("the faultless copy", |change| change.name);
    format!(
        "#[allow(warnings, clippy::all)]\nmod {module} {{\n{whole}\n\
         pub const STORE: face::Functions = face::functions!({name:?}, lent);\n\
         pub const STATEMENTS: face::Statements = face::statements!({name:?}, lent);\n}}\n"
    )
}

/// The modules a copy needs for itself: those that always differ, the changed one, and what uses one of these.
/// The rest is the judge's own, which saves most of the compiling. Without a change all is copied.
fn touched(texts: &[String], change: Option<&Change>) -> Vec<&'static str> {
    let Some(change) = change else {
        return MODULES.to_vec();
    };
    let uses = |text: &str, other: &str| text.contains(&format!("super::{other}::"));
    let mut copied = vec!["lib", "lent", "listing", change.module];
    loop {
        let more = MODULES.iter().zip(texts).find(|(name, text)| {
            !copied.contains(name) && copied.iter().any(|other| uses(text, other))
        });
        match more {
            Some((name, _)) => copied.push(name),
            None => return copied,
        }
    }
}

fn changed(text: &str, change: &Change) -> String {
    let from = flat(change.from);
    let found = text.matches(&from).count();
    assert_eq!(
        found, 1,
        "{}: its place is there {found} times",
        change.name
    );
    text.replace(&from, &flat(change.to))
}
