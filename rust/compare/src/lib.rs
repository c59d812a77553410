//! Compares two stores on generated input: the same bytes are lent to both, and status, result, position
//! block, table and area must come back the same.
//!
//! A run is a row of cases, each drawn from the seed and its own number, so that a difference can be looked at
//! alone. [`run()`] is the whole of it; [`command::main`] is the same for a command line.

pub mod command;
pub mod comparison;
pub mod damage;
pub mod dbd;
pub mod dice;
pub mod drawing;
pub mod packed;
pub mod plan;
pub mod scenarios;
pub mod table;
pub mod tally;

pub use comparison::{Comparison, Difference};
pub use tally::Tally;

use face::{Functions, Statements};

/// The table of functions, filled with the judge.
pub const JUDGE: Functions = face::functions!("judge", judge::lent);

/// The reader and the writer of DBD statements, those of the judge.
pub const JUDGED_STATEMENTS: Statements = face::statements!("judge", judge::lent);

/// Compares until that many calls were compared, or to the first difference.
pub fn run(
    judge: &Functions,
    store: &Functions,
    seed: u64,
    calls: u64,
) -> Result<Tally, Box<Difference>> {
    let mut comparison = Comparison::new(judge, store, seed);
    for case in 0.. {
        if comparison.tally.calls() >= calls {
            break;
        }
        run_case(&mut comparison, case)?;
    }
    Ok(comparison.tally)
}

/// One case alone, as [`run()`] would run it.
pub fn run_case(comparison: &mut Comparison, case: u64) -> Result<(), Box<Difference>> {
    let mut dice = comparison.open_case(case);
    scenarios::play(&mut dice, comparison, case)
}
