//! Looks for the peers. One that is not installed is left out, and the benchmark says so.

use std::env;
use std::path::Path;
use std::process::{Command, Stdio};

fn main() {
    println!("cargo:rerun-if-changed=build.rs");
    for (peer, library) in [("lmdb", "lmdb"), ("sqlite", "sqlite3")] {
        println!("cargo:rustc-check-cfg=cfg({peer})");
        println!("cargo:rerun-if-changed={}", file(library));
        if links(library) {
            println!("cargo:rustc-link-lib=dylib={library}");
            println!("cargo:rustc-cfg={peer}");
        }
    }
}

/// Where the C compiler finds the library. Of one that it does not find it tells the bare name, which is no file here:
/// so cargo looks again on every run until the library is there, and again when it is gone.
fn file(library: &str) -> String {
    let name = format!("lib{library}.so");
    let told = Command::new("cc")
        .arg(format!("-print-file-name={name}"))
        .output();
    match told {
        Ok(told) => String::from_utf8_lossy(&told.stdout).trim().to_string(),
        Err(_) => name,
    }
}

/// Whether the C compiler, which links Rust programs too, finds the library.
fn links(library: &str) -> bool {
    let folder = env::var_os("OUT_DIR").expect("cargo names it");
    Command::new("cc")
        .args(["-shared", "-x", "c", "/dev/null", "-o"])
        .arg(Path::new(&folder).join("probe.so"))
        .arg(format!("-l{library}"))
        .stdout(Stdio::null())
        .stderr(Stdio::null())
        .status()
        .is_ok_and(|status| status.success())
}
