//! Links the store's archive: the one that UMBRISTAL_ARCHIVE names, or else one made here from the proved crates.

use std::env;
use std::fs;
use std::path::{Path, PathBuf};
use std::process::{exit, Command};

/// The repository's root, from the package's folder, in which cargo runs this.
const REPOSITORY: &str = "../..";

fn main() {
    println!("cargo:rerun-if-changed=build.rs");
    println!("cargo:rerun-if-env-changed=UMBRISTAL_ARCHIVE");
    let archive = match env::var_os("UMBRISTAL_ARCHIVE") {
        Some(named) => given(Path::new(&named)),
        None => made(),
    };
    let (Some(folder), Some(name)) = (archive.parent(), archive.file_name()) else {
        refuse(&format!("{} is no file", archive.display()));
    };
    println!("cargo:rustc-link-search=native={}", folder.display());
    println!("cargo:rustc-link-lib=static:+verbatim={}", name.display());
}

/// Ends the build with one sentence.
fn refuse(sentence: &str) -> ! {
    println!("cargo::error={sentence}");
    exit(1)
}

/// The archive of that name, wherever it is found first.
fn given(named: &Path) -> PathBuf {
    let tried = meant(named);
    let Some(found) = tried.iter().find(|path| path.is_file()) else {
        let said: Vec<String> = tried
            .iter()
            .map(|path| path.display().to_string())
            .collect();
        refuse(&format!(
            "UMBRISTAL_ARCHIVE names no file; tried {}",
            said.join(", ")
        ));
    };
    let archive = found.canonicalize().expect("a file that is there");
    println!("cargo:rerun-if-changed={}", archive.display());
    archive
}

/// What the name can mean. A relative one is meant from where cargo was called, which the shell has left in PWD; or else from
/// the repository's root, from the workspace, or from the package.
fn meant(named: &Path) -> Vec<PathBuf> {
    if named.is_absolute() {
        return vec![named.to_path_buf()];
    }
    println!("cargo:rerun-if-env-changed=PWD");
    let called = env::var_os("PWD").map(PathBuf::from);
    let others = [REPOSITORY, "..", "."].map(|folder| Path::new(folder).canonicalize());
    let folders = called.into_iter().chain(others.into_iter().flatten());
    folders.map(|folder| folder.join(named)).collect()
}

/// Proves the crates where that is not done yet, and compiles them; needs the Rattle kit.
fn made() -> PathBuf {
    watch_sources();
    let [host, target, folder] = ["HOST", "TARGET", "OUT_DIR"].map(cargos);
    if host != target {
        refuse(&format!(
            "the store's archive is made for {host} alone; for {target} name one by UMBRISTAL_ARCHIVE"
        ));
    }
    let archive = Path::new(&folder).join("libumbristal.a");
    let done = Command::new("tools/host-archive")
        .arg(&archive)
        .current_dir(REPOSITORY)
        .status();
    match done {
        Ok(status) if status.success() => archive,
        Ok(_) => refuse("tools/host-archive made no archive"),
        Err(error) => refuse(&format!("tools/host-archive: {error}")),
    }
}

/// The files that the archive is made of. What `rt` keeps beside them, in each crate's out/, changes with every proof.
fn watch_sources() {
    let crates = Path::new(REPOSITORY).join("crates");
    let entries = fs::read_dir(&crates).expect("the crates are there");
    for entry in entries {
        let folder = entry.expect("an entry of a folder").path();
        for part in ["src", "specs", "proofs"].map(|part| folder.join(part)) {
            if part.is_dir() {
                println!("cargo:rerun-if-changed={}", part.display());
            }
        }
    }
    for watched in ["crates.txt", "tools/host-archive"] {
        println!("cargo:rerun-if-changed={REPOSITORY}/{watched}");
    }
}

fn cargos(name: &str) -> String {
    env::var(name).unwrap_or_else(|error| panic!("cargo sets {name}: {error}"))
}
