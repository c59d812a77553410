//! Catalogue and table: lookups and checks.

use super::values::{number, LONGEST};
use face::status::{BLANK, CX, TX};
use std::cmp::Ordering;
use std::ops::Range;

const DEEPEST: u8 = 15;
const MOST_TYPES: usize = 32;

/// A catalogue block.
#[derive(Clone, Copy)]
pub struct Catalogue<'a>(pub &'a [u8]);

impl<'a> Catalogue<'a> {
    pub fn types(self) -> u8 {
        self.0[5]
    }

    fn entry(self, code: u8) -> &'a [u8] {
        &self.0[8 * usize::from(code)..][..8]
    }

    pub fn parent(self, code: u8) -> u8 {
        self.entry(code)[0]
    }

    pub fn length(self, code: u8) -> usize {
        usize::from(self.entry(code)[1])
    }

    pub fn has_unique_key(self, code: u8) -> bool {
        self.entry(code)[2] == 1
    }

    /// Where the key stands in the data; empty where the type has none.
    pub fn key(self, code: u8) -> Range<usize> {
        let entry = self.entry(code);
        let start = usize::from(entry[3]).saturating_sub(1);
        start..start + usize::from(entry[4])
    }

    pub fn has_packed_key(self, code: u8) -> bool {
        self.entry(code)[7] == 1
    }

    pub fn level(self, code: u8) -> u8 {
        let mut level = 1;
        let mut code = self.parent(code);
        while code != 0 {
            level += 1;
            code = self.parent(code);
        }
        level
    }

    pub fn is_beneath(self, code: u8, above: u8) -> bool {
        let mut code = self.parent(code);
        while code > above {
            code = self.parent(code);
        }
        code == above
    }

    /// The field of that number: its type, where it stands in the data, and whether it is packed.
    pub fn field(self, number: u8) -> Option<(u8, Range<usize>, bool)> {
        if number == 0 || number > self.0[6] {
            return None;
        }
        let entry = &self.0[8 + 8 * usize::from(self.types()) + 4 * usize::from(number) - 4..][..4];
        let start = usize::from(entry[1]) - 1;
        Some((
            entry[0],
            start..start + usize::from(entry[2]),
            entry[3] == 1,
        ))
    }
}

/// What a good catalogue says of a type, taken out once for a pass over a table.
#[derive(Clone, Copy)]
struct Type {
    parent: u8,
    level: u8,
    length: u8,
    unique: bool,
    packed: bool,
    key_start: u8,
    key_end: u8,
}

impl Type {
    const NONE: Type = Type {
        parent: 0,
        level: 0,
        length: 0,
        unique: false,
        packed: false,
        key_start: 0,
        key_end: 0,
    };

    fn read(catalogue: Catalogue, code: u8, level: u8) -> Type {
        let key = catalogue.key(code);
        Type {
            parent: catalogue.parent(code),
            level,
            length: catalogue.length(code) as u8,
            unique: catalogue.has_unique_key(code),
            packed: catalogue.has_packed_key(code),
            key_start: key.start as u8,
            key_end: key.end as u8,
        }
    }

    fn key(self) -> Range<usize> {
        usize::from(self.key_start)..usize::from(self.key_end)
    }
}

/// Every type by its code; what is no type has level 0.
pub struct Types {
    by_code: [Type; MOST_TYPES + 1],
    longest: u8,
}

/// Checks a catalogue.
pub fn check_catalogue(block: &[u8]) -> Option<Types> {
    let header = block.get(..8)?;
    let (types, fields) = (header[5], header[6]);
    let sizes = usize::from(types) * 8 + usize::from(fields) * 4;
    if &header[..5] != b"HDC\x00\x01"
        || !(1..=32).contains(&types)
        || fields > 64
        || header[7] != 0
        || block.len() != 8 + sizes
    {
        return None;
    }
    let catalogue = Catalogue(block);
    let mut known = Types {
        by_code: [Type::NONE; MOST_TYPES + 1],
        longest: 0,
    };
    for code in 1..=types {
        let level = check_type(catalogue, &known, code)?;
        known.by_code[usize::from(code)] = Type::read(catalogue, code, level);
        known.longest = known.longest.max(catalogue.entry(code)[1]);
    }
    let entries = block[8 + 8 * usize::from(types)..].chunks_exact(4);
    let good = |entry: &[u8]| {
        (1..=types).contains(&entry[0])
            && valued(entry[3], entry[2])
            && fits(entry[1], entry[2], catalogue.entry(entry[0])[1])
    };
    entries.into_iter().all(good).then_some(known)
}

/// The level of a type whose entry is good.
fn check_type(catalogue: Catalogue, known: &Types, code: u8) -> Option<u8> {
    let &[parent, length, kind, start, key, zero1, zero2, value] = catalogue.entry(code) else {
        return None;
    };
    let keyed = match kind {
        0 => start == 0 && key == 0 && value == 0,
        1 | 2 => fits(start, key, length) && valued(value, key),
        _ => false,
    };
    if !(1..=120).contains(&length) || !keyed || [zero1, zero2] != [0; 2] {
        return None;
    }
    if code == 1 {
        return (parent == 0).then_some(1);
    }
    let before = code - 1;
    let in_order =
        parent != 0 && parent < code && (parent == before || catalogue.is_beneath(before, parent));
    let level = known.by_code[usize::from(parent.min(32))].level + 1;
    (in_order && level <= DEEPEST).then_some(level)
}

fn fits(start: u8, length: u8, whole: u8) -> bool {
    start >= 1 && length >= 1 && u16::from(start) + u16::from(length) - 1 <= u16::from(whole)
}

/// Whether bytes so many may have this value type.
fn valued(value: u8, length: u8) -> bool {
    value == 0 || (value == 1 && length <= LONGEST)
}

/// CX, TX or 0.
pub fn table_check(catalogue: &[u8], table: &[u8]) -> u8 {
    match check_catalogue(catalogue) {
        None => CX,
        Some(types) if !check_table(&types, table) => TX,
        Some(_) => BLANK,
    }
}

/// How many segments a table has.
pub fn count(table: &[u8]) -> usize {
    usize::from(table[6]) << 8 | usize::from(table[7])
}

pub fn cell_size(table: &[u8]) -> usize {
    usize::from(table[5])
}

/// The cell with its type code in front.
pub fn cell(table: &[u8], size: usize, number: usize) -> &[u8] {
    &table[8 + number * size..][..size]
}

/// Checks a table against a good catalogue, in one pass over the cells.
pub fn check_table(types: &Types, table: &[u8]) -> bool {
    let size = usize::from(types.longest) + 1;
    let Some(header) = table.get(..8) else {
        return false;
    };
    let cells = (table.len() - 8) / size;
    if &header[..5] != b"HDT\x00\x01"
        || usize::from(header[5]) != size
        || table.len() != 8 + cells * size
        || cells > 4096
        || count(table) > cells
    {
        return false;
    }
    let (used, free) = table[8..].split_at(count(table) * size);
    check_cells(types, used, size) && is_zero(free)
}

/// Without an early way out, so that many bytes are taken at a time.
fn is_zero(bytes: &[u8]) -> bool {
    bytes.iter().fold(0, |all, &byte| all | byte) == 0
}

/// The last segment at each level that is still open, and how deep the path goes.
struct Open<'t> {
    cells: [&'t [u8]; DEEPEST as usize + 1],
    deepest: usize,
}

fn check_cells(types: &Types, used: &[u8], size: usize) -> bool {
    let mut open = Open {
        cells: [&[0]; DEEPEST as usize + 1],
        deepest: 0,
    };
    used.chunks_exact(size)
        .all(|cell| check_cell(types, &mut open, cell))
}

fn check_cell<'t>(types: &Types, open: &mut Open<'t>, cell: &'t [u8]) -> bool {
    let code = cell[0];
    let Some(&found) = types.by_code.get(usize::from(code)) else {
        return false;
    };
    let level = usize::from(found.level & 15);
    if level == 0 || level > open.deepest + 1 || open.cells[level - 1][0] != found.parent {
        return false;
    }
    if !is_zero(&cell[1 + usize::from(found.length)..]) {
        return false;
    }
    if found.packed && number(&cell[1..][found.key()]).is_none() {
        return false;
    }
    // A twin before it, or a segment of an earlier type under the same parent.
    if level <= open.deepest {
        let before = open.cells[level];
        if before[0] > code || (before[0] == code && !follows(found, before, cell)) {
            return false;
        }
    }
    open.cells[level] = cell;
    open.deepest = level;
    true
}

/// Whether a cell may stand behind its twin.
fn follows(of: Type, before: &[u8], cell: &[u8]) -> bool {
    if of.key().is_empty() {
        return true;
    }
    let (lesser, greater) = (&before[1..][of.key()], &cell[1..][of.key()]);
    let order = match of.packed {
        true => number(lesser).cmp(&number(greater)),
        false => lesser.cmp(greater),
    };
    match order {
        Ordering::Less => true,
        Ordering::Equal => !of.unique,
        Ordering::Greater => false,
    }
}

/// The first cell behind a segment and all beneath it.
pub fn run_end(catalogue: Catalogue, table: &[u8], size: usize, number: usize) -> usize {
    let level = catalogue.level(table[8 + number * size]);
    (number + 1..count(table))
        .find(|&other| catalogue.level(table[8 + other * size]) <= level)
        .unwrap_or(count(table))
}

/// The parent's cell; there is one unless the type is the root type.
pub fn parent_cell(
    catalogue: Catalogue,
    table: &[u8],
    size: usize,
    number: usize,
) -> Option<usize> {
    let above = catalogue.parent(table[8 + number * size]);
    if above == 0 {
        return None;
    }
    (0..number)
        .rev()
        .find(|&other| table[8 + other * size] == above)
}
