//! The README's program is the example, and the example does what the README says.

use std::path::{Path, PathBuf};
use std::process::{Command, Output};
use std::{env, fs};

const README: &str = include_str!("../../README.md");
const PROGRAM: &str = include_str!("../examples/plant.rs");

#[test]
fn the_readme_begins_with_the_program() {
    let begins = "# The Rust side\n\n```toml\n[dependencies]\numbristal = { path = ";
    assert!(README.starts_with(begins));
    let shown = README.split("```rust\n").nth(1).unwrap();
    assert_eq!(shown.split("```\n").next(), Some(PROGRAM));
}

#[test]
fn no_line_is_too_long() {
    let longest = README.lines().map(|line| line.chars().count()).max();
    assert!(longest <= Some(160), "{longest:?}");
}

/// An empty folder for one test.
fn folder(name: &str) -> PathBuf {
    let folder = Path::new(env!("CARGO_TARGET_TMPDIR")).join(name);
    let _ = fs::remove_dir_all(&folder);
    fs::create_dir_all(&folder).unwrap();
    folder
}

/// The example as a program, which `cargo test` builds beside the tests.
fn plant(folder: &Path, arguments: &[&str]) -> Output {
    let test = env::current_exe().unwrap();
    let built = test.parent().and_then(Path::parent).unwrap();
    let program = built.join("examples/plant");
    let mut command = Command::new(&program);
    let ran = command.current_dir(folder).args(arguments).output();
    ran.unwrap_or_else(|error| panic!("{}: {error}", program.display()))
}

/// What it prints where it succeeds.
fn listing(folder: &Path, unit: &str, step: &str) -> String {
    let ran = plant(folder, &[".", unit, step]);
    assert!(ran.status.success() && ran.stderr.is_empty(), "{ran:?}");
    String::from_utf8(ran.stdout).unwrap()
}

/// What it says where it fails: that, and nothing else.
fn said(folder: &Path, unit: &str, step: &str) -> String {
    let ran = plant(folder, &[".", unit, step]);
    assert_eq!(ran.status.code(), Some(1), "{ran:?}");
    assert!(ran.stdout.is_empty(), "{ran:?}");
    String::from_utf8(ran.stderr).unwrap()
}

/// The session that the README shows.
#[test]
fn it_saves_and_loads() {
    let folder = folder("saves");
    let mut session = String::new();
    for (unit, step) in [("07A", "14T"), ("09B", "14P"), ("07A", "13P")] {
        let listing = listing(&folder, unit, step);
        session += &format!("$ cargo run -- . {unit} {step}\n{listing}");
    }
    let said = said(&folder, "07A", "13X");
    session += &format!("$ cargo run -- . 07A 13X\n{said}");
    assert!(
        README.contains(&format!("```\n{session}```\n")),
        "{session}"
    );
    assert_eq!(fs::read(folder.join("TAB.HDT")).unwrap().len(), 8 + 100 * 4);
    assert!(!folder.join("TAB.NEW").exists());
}

#[test]
fn what_is_refused_is_not_saved() {
    let folder = folder("refused");
    listing(&folder, "07A", "14T");
    let table = fs::read(folder.join("TAB.HDT")).unwrap();
    let cases = [
        ("07A", "14P", "plant: II: a twin has this unique key\n"),
        ("07A", "14", "plant: AB: type 2 has 3 data bytes, not 2\n"),
        ("08", "14T", "plant: AB: type 1 has 3 data bytes, not 2\n"),
        ("8", "14T", "plant: AJ: field 1 has 2 bytes, its value 1\n"),
    ];
    for (unit, step, why) in cases {
        assert_eq!(said(&folder, unit, step), why);
        assert_eq!(fs::read(folder.join("TAB.HDT")).unwrap(), table);
    }
    fs::write(folder.join("TAB.HDT"), &table[1..]).unwrap();
    let why = said(&folder, "07A", "13P");
    assert_eq!(why, "plant: TX: the table is bad\n");
}

#[test]
fn it_says_how_it_is_called() {
    for arguments in [&[][..], &["."], &[".", "07A", "14T", "P1"]] {
        let ran = plant(&folder("called"), arguments);
        assert_eq!(ran.status.code(), Some(2), "{ran:?}");
        assert_eq!(ran.stderr, b"plant FOLDER UNIT STEP\n");
    }
}
