//! Compares the proved store with the judge.

use std::process::ExitCode;

fn main() -> ExitCode {
    compare::command::main(&compare::JUDGE, &linked::STORE, std::env::args().skip(1))
}
