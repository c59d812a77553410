//! The three reports.

use super::blocks::{cell_size, check_catalogue, check_table, count, run_end, Catalogue};
use super::lists::{Levels, List};
use face::status::{AB, AC, CX, TX};

/// A report by a pass for list 1, and within each run that it finds one for list 2; with every check. The status is
/// in the low half, how many hits in the high half.
pub fn nested(block: &[u8], table: &[u8], list1: &[u8], list2: &[u8], out: &mut [u8]) -> u64 {
    packed(attempt(Way::Nested, block, table, list1, list2, out))
}

/// The same by one pass over all cells; a plain reading is no different.
pub fn joined(block: &[u8], table: &[u8], list1: &[u8], list2: &[u8], out: &mut [u8]) -> u64 {
    packed(attempt(Way::Joined, block, table, list1, list2, out))
}

enum Way {
    Nested,
    Joined,
}

fn packed(shown: Result<usize, u8>) -> u64 {
    shown.map_or_else(u64::from, |hits| (hits as u64) << 32)
}

fn attempt(
    way: Way,
    block: &[u8],
    table: &[u8],
    list1: &[u8],
    list2: &[u8],
    out: &mut [u8],
) -> Result<usize, u8> {
    let types = check_catalogue(block).ok_or(CX)?;
    let catalogue = Catalogue(block);
    if !check_table(&types, table) {
        return Err(TX);
    }
    let mut list = List::empty();
    list.read(catalogue, list1)?;
    let outer = list.arguments().len();
    if outer == 0 || list2.is_empty() {
        return Err(AC);
    }
    list.read(catalogue, list2)?;
    let (upper, lower) = list.arguments().split_at(outer);
    let levels_of = |list| Levels::complete(catalogue, list, lowest(list));
    let all = levels_of(list.arguments());
    // What is too long for the out is found before anything is written.
    if 2 * count(table) > out.len() && 2 * one_pass(table, &all, |_, _| ()) > out.len() {
        return Err(AB);
    }
    let show = |index: usize, cell: usize| {
        out[2 * index..2 * index + 2].copy_from_slice(&(cell as u16).to_be_bytes());
    };
    Ok(match way {
        Way::Nested => two_passes(catalogue, table, &levels_of(upper), &levels_of(lower), show),
        Way::Joined => one_pass(table, &all, show),
    })
}

fn lowest(list: &[super::lists::Argument]) -> u8 {
    list.last().map_or(0, |argument| argument.code)
}

/// One pass over all cells.
fn one_pass(table: &[u8], levels: &Levels, mut show: impl FnMut(usize, usize)) -> usize {
    let (size, count) = (cell_size(table), count(table));
    let (mut hits, mut at, mut agreed) = (0, 0, 0);
    while let Some(cell) = levels.seek(table, size, at..count, &mut agreed) {
        show(hits, cell);
        hits += 1;
        at = cell + 1;
    }
    hits
}

/// A pass for list 1, and within each run that it finds one for list 2.
fn two_passes(
    catalogue: Catalogue,
    table: &[u8],
    upper: &Levels,
    lower: &Levels,
    mut show: impl FnMut(usize, usize),
) -> usize {
    let (size, count) = (cell_size(table), count(table));
    let (mut hits, mut at, mut agreed) = (0, 0, 0);
    while let Some(parent) = upper.seek(table, size, at..count, &mut agreed) {
        let end = run_end(catalogue, table, size, parent);
        let mut inner = upper.depth;
        at = parent + 1;
        while let Some(cell) = lower.seek(table, size, at..end, &mut inner) {
            show(hits, cell);
            hits += 1;
            at = cell + 1;
        }
        at = end;
    }
    hits
}
