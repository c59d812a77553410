//! What the blocks say of lengths, levels and cells. Catalogue and table are sound wherever this is asked.

use crate::numbers::{CellNumber, FieldNumber, TypeCode};
use crate::segment::Segment;
use crate::status::Status;

/// Where the cells of a table begin, and the entries of a catalogue.
const HEADER: usize = 8;

/// The data length of a type, if there is such a type.
pub(crate) fn data_length(catalogue: &[u8], type_code: TypeCode) -> Option<usize> {
    let types = catalogue[5];
    let entry = usize::from(type_code.0) * 8;
    (1..=types)
        .contains(&type_code.0)
        .then(|| usize::from(catalogue[entry + 1]))
}

/// The length of a field and whether it is packed, if there is such a field.
#[inline]
pub(crate) fn field(catalogue: &[u8], field: FieldNumber) -> Option<(usize, bool)> {
    let (types, fields) = (catalogue[5], catalogue[6]);
    let behind_types = HEADER + usize::from(types) * 8;
    let entry = behind_types + usize::from(field.0.saturating_sub(1)) * 4;
    (1..=fields)
        .contains(&field.0)
        .then(|| (usize::from(catalogue[entry + 2]), catalogue[entry + 3] == 1))
}

/// The level of a type: how many types there are from the root down to it.
fn level(catalogue: &[u8], type_code: TypeCode) -> u8 {
    let mut level = 0;
    let mut code = type_code.0;
    while code != 0 {
        level += 1;
        code = catalogue[usize::from(code) * 8];
    }
    level
}

/// How many segments a table has.
pub(crate) fn count(table: &[u8]) -> usize {
    usize::from(table[6]) << 8 | usize::from(table[7])
}

/// How many cells a table has, free ones too.
pub(crate) fn cells(table: &[u8]) -> usize {
    (table.len() - HEADER) / usize::from(table[5])
}

/// The segment in a cell; nothing for a cell that is free or none.
pub(crate) fn segment<'t>(
    catalogue: &[u8],
    table: &'t [u8],
    cell: CellNumber,
) -> Option<Segment<'t>> {
    let number = usize::from(cell.0);
    if number >= count(table) {
        return None;
    }
    let start = HEADER + number * usize::from(table[5]);
    let type_code = TypeCode(table[start]);
    let length = data_length(catalogue, type_code)?;
    Some(Segment {
        cell,
        type_code,
        level: level(catalogue, type_code),
        data: &table[start + 1..=start + length],
        status: Status::Blank,
    })
}
