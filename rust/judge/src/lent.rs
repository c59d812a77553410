//! The same functions over lent slices, with the results packed as the C face packs them: one for each function of
//! its table.

use super::reports::Way;

pub use super::dbd::{dbd_read, dbd_write};
pub use super::{catalogue_check, table_check};

/// As `umbristal_table_make`.
pub fn table_make(catalogue: &[u8], table: &mut [u8]) -> u8 {
    let made = super::table_make(catalogue, table);
    table.copy_from_slice(&made.table);
    made.status
}

/// As `umbristal_call`.
pub fn call(
    catalogue: &[u8],
    table: &mut [u8],
    position: &mut [u8],
    number: u8,
    list: &[u8],
    area: &mut [u8],
) -> u64 {
    let outcome = super::call(catalogue, table, position, number, list, area);
    table.copy_from_slice(&outcome.table);
    position.copy_from_slice(&outcome.position);
    area.copy_from_slice(&outcome.area);
    outcome.packed()
}

/// As `umbristal_call_sound`: the judge knows no faster way.
pub use self::call as call_sound;

/// As `umbristal_report_nested`.
pub fn report_nested(cat: &[u8], tab: &[u8], list1: &[u8], list2: &[u8], out: &mut [u8]) -> u64 {
    report(Way::Nested, [cat, tab, list1, list2], out)
}

/// As `umbristal_report_joined`.
pub fn report_joined(cat: &[u8], tab: &[u8], list1: &[u8], list2: &[u8], out: &mut [u8]) -> u64 {
    report(Way::Joined, [cat, tab, list1, list2], out)
}

/// As `umbristal_report_plain`.
pub fn report_plain(cat: &[u8], tab: &[u8], list1: &[u8], list2: &[u8], out: &mut [u8]) -> u64 {
    report(Way::Plain, [cat, tab, list1, list2], out)
}

/// The status, and how many times 2 to the 32nd.
fn report(way: Way, [catalogue, table, list1, list2]: [&[u8]; 4], out: &mut [u8]) -> u64 {
    let report = super::report(way, catalogue, table, list1, list2, out);
    out.copy_from_slice(&report.out);
    u64::from(report.status) | u64::from(report.count) << 32
}
