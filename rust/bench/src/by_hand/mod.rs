//! The same functions as a programmer would write them in Rust: over the same blocks, with the same checks and
//! the same answers, and with nothing proved. Only what the benchmark asks for is here: GU, GN, their hold
//! forms, ISRT, DLET, the check of a table and the reports.

mod blocks;
mod calls;
mod lists;
mod reports;
mod values;

#[cfg(test)]
mod tests;

use crate::calls::Measured;
use face::Functions;

pub struct ByHand;

impl Measured for ByHand {
    /// The check of a catalogue alone and the maker are the store's: they are not measured.
    const FUNCTIONS: Functions = Functions {
        name: "Rust by hand",
        table_check: blocks::table_check,
        call: calls::call,
        call_sound: calls::call_sound,
        report_nested: reports::nested,
        report_joined: reports::joined,
        report_plain: reports::joined,
        ..linked::STORE
    };
}
