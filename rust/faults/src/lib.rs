//! Copies of the judge with one small fault each. A comparison that does not find every one of them is not
//! worth much; `tests/found.rs` asserts that it does, and that it finds nothing in the faultless copy.

pub mod changes;

include!(concat!(env!("OUT_DIR"), "/copies.rs"));

/// A copy of the judge without a fault.
pub const FAULTLESS: face::Functions = faultless::STORE;

/// Its reader and writer of DBD statements.
pub const FAULTLESS_STATEMENTS: face::Statements = faultless::STATEMENTS;
