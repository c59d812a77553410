//! The proved store behind its C face, over slices.
//!
//! Every function but [`call_sound`] and its twin in [`cobol`] takes any bytes. The archive behind them is the one that the environment
//! variable UMBRISTAL_ARCHIVE named when this was built, or one that the build made by `tools/host-archive`.

#[macro_use]
mod declare;
pub mod cobol;
pub mod parts;

use face::{Functions, Statements};

declare! {
    /// 0, or CX.
    pub fn catalogue_check = umbristal_catalogue_check(cat: &[u8]) -> u8;

    /// CX, TX or 0.
    pub fn table_check = umbristal_table_check(cat: &[u8], tab: &[u8]) -> u8;

    /// An empty table over the whole slice and 0; or CX or TX, and nothing written.
    pub fn table_make = umbristal_table_make(cat: &[u8], tab: &mut [u8]) -> u8;

    /// One call on any blocks; the result is packed as [`face::Call`] says.
    pub fn call = umbristal_call(
        cat: &[u8], tab: &mut [u8], pos: &mut [u8], number: u8, list: &[u8], area: &mut [u8]
    ) -> u64;

    /// The same without testing catalogue, table and position again.
    ///
    /// # Safety
    ///
    /// As [`Functions::call_sound`] says.
    pub unsafe fn call_sound = umbristal_call_sound(
        cat: &[u8], tab: &mut [u8], pos: &mut [u8], number: u8, list: &[u8], area: &mut [u8]
    ) -> u64;

    /// Get-next with list 1, and for each segment got get-next-within-parent with list 2; the result is packed as
    /// [`face::Report`] says.
    pub fn report_nested = umbristal_report_nested(
        cat: &[u8], tab: &[u8], list1: &[u8], list2: &[u8], out: &mut [u8]
    ) -> u64;

    /// The same by get-next with both lists as one.
    pub fn report_joined = umbristal_report_joined(
        cat: &[u8], tab: &[u8], list1: &[u8], list2: &[u8], out: &mut [u8]
    ) -> u64;

    /// The same by testing every cell against both lists as one.
    pub fn report_plain = umbristal_report_plain(
        cat: &[u8], tab: &[u8], list1: &[u8], list2: &[u8], out: &mut [u8]
    ) -> u64;

    /// A catalogue and its names from DBD statements; the result is packed as [`face::Statements::dbd_read`] says.
    pub fn dbd_read = umbristal_dbd_read(text: &[u8], cat: &mut [u8], names: &mut [u8]) -> u64;

    /// DBD statements from a catalogue and its names; the result is packed as [`face::Statements::dbd_write`] says.
    pub fn dbd_write = umbristal_dbd_write(cat: &[u8], names: &[u8], text: &mut [u8]) -> u64;
}

/// The table, filled with the proved store.
pub const STORE: Functions = face::functions!("store", crate);

/// The reader and the writer of DBD statements, those of the proved store.
pub const STATEMENTS: Statements = face::statements!("store", crate);
