//! The tables on which the stack could go deepest.

/// Data bytes of every segment: two that count, and two more.
pub const DATA: usize = 4;
const CELL: usize = DATA + 1;

/// As many cells as a table can have.
const ROOM: usize = 4096;

pub const TABLES: usize = 7;
pub const NAMES: [&str; TABLES] = [
    "4,096 roots",
    "4,095 children of a root",
    "paths of 15 types",
    "32 types",
    "units, steps, tries",
    "no segment",
    "packed paths",
];

/// A catalogue, and a table that it is good for.
#[derive(Clone)]
pub struct Blocks {
    pub catalogue: Vec<u8>,
    pub table: Vec<u8>,
    /// How many cells are in use.
    pub cells: usize,
    /// The type of the longest path's last segment, and the types' parents, type 1's first.
    pub lowest: u8,
    parents: Vec<u8>,
    /// The first two data bytes of the last root, and of the last segment of the lowest type.
    pub last_root: u16,
    pub last_data: u16,
    /// What these bytes are at least in every segment, and what they are in none.
    pub least: u16,
    pub none: u16,
}

/// The value types of keys and fields.
const BYTES: u8 = 0;
const PACKED: u8 = 1;

/// A number below 1,000 as two bytes of packed decimal.
fn packed(number: usize) -> usize {
    (number / 100) << 12 | (number / 10 % 10) << 8 | (number % 10) << 4 | 0xC
}

pub fn tables() -> [Blocks; TABLES] {
    let chain: Vec<u8> = (0..15).collect();
    let broad: Vec<u8> = (0..15).chain([14; 17]).collect();
    let paths = (0..ROOM - 1).map(|cell| (cell % 15 + 1, cell / 15));
    let packed_paths = (0..ROOM - 1).map(|cell| (cell % 15 + 1, packed(cell / 15)));
    let fans = (0..ROOM - 1).map(|cell| (cell % 32 + 1, cell / 32));
    let units = (0..ROOM - 37).map(|cell| match (cell % 41, cell % 41 % 5) {
        (0, _) => (1, cell / 41),
        (_, 1) => (2, cell % 41 / 5),
        _ => (3, cell % 41),
    });
    [
        blocks(&[0, 1], 1, BYTES, 1, (0..ROOM).map(|cell| (1, cell))),
        blocks(
            &[0, 1],
            1,
            BYTES,
            2,
            (0..ROOM).map(|cell| (1 + cell.min(1), cell)),
        ),
        blocks(&chain, 2, BYTES, 15, paths),
        blocks(&broad, 1, BYTES, 15, fans),
        blocks(&[0, 1, 2], 1, BYTES, 3, units),
        blocks(&chain, 0, BYTES, 15, [].into_iter()),
        blocks(&chain, 1, PACKED, 15, packed_paths),
    ]
}

/// Types of these parents with keys of this kind and value type, each with its first two data bytes as key and as field;
/// cells by type and by the number that those bytes are.
fn blocks(
    parents: &[u8],
    kind: u8,
    value: u8,
    lowest: u8,
    cells: impl Iterator<Item = (usize, usize)>,
) -> Blocks {
    let types = parents.len() as u8;
    let mut catalogue = b"HDC\x00\x01".to_vec();
    catalogue.extend([types, types, 0]);
    let key = if kind == 0 { [0, 0] } else { [1, 2] };
    for parent in parents {
        catalogue.extend([*parent, DATA as u8, kind, key[0], key[1], 0, 0, value]);
    }
    for t in 1..=types {
        catalogue.extend([t, 1, 2, value]);
    }
    let cells: Vec<(u8, u16)> = cells.map(|(t, data)| (t as u8, data as u16)).collect();
    let last = |code: u8| cells.iter().rev().find(|(t, _)| *t == code);
    let (least, none) = match value {
        PACKED => (packed(0), packed(999)),
        _ => (0, 0xFFFF),
    };
    let blocks = Blocks {
        table: table(&cells),
        catalogue,
        cells: cells.len(),
        lowest,
        parents: parents.to_vec(),
        last_root: last(1).map_or(0, |(_, data)| *data),
        last_data: last(lowest).map_or(0, |(_, data)| *data),
        least: least as u16,
        none: none as u16,
    };
    assert_eq!(linked::table_check(&blocks.catalogue, &blocks.table), 0);
    blocks
}

fn table(cells: &[(u8, u16)]) -> Vec<u8> {
    let mut table = b"HDT\x00\x01".to_vec();
    table.push(CELL as u8);
    table.extend((cells.len() as u16).to_be_bytes());
    for (code, data) in cells {
        table.push(*code);
        table.extend(data.to_be_bytes());
        table.extend([0; DATA - 2]);
    }
    table.resize(8 + ROOM * CELL, 0);
    table
}

impl Blocks {
    /// The types from the root down to the lowest.
    pub fn path(&self) -> Vec<u8> {
        let above = |t: &u8| Some(self.parents[usize::from(*t) - 1]).filter(|parent| *parent > 0);
        let mut path: Vec<u8> = std::iter::successors(Some(self.lowest), above).collect();
        path.reverse();
        path
    }

    /// What a cell holds behind its type code; zeros where there is no such cell.
    pub fn data(&self, cell: usize) -> Vec<u8> {
        let from = 9 + cell * CELL;
        self.table[from..from + DATA].to_vec()
    }

    /// The catalogue without its value types.
    pub fn plain_catalogue(&self) -> Vec<u8> {
        let mut catalogue = self.catalogue.clone();
        let (types, fields) = catalogue[8..].split_at_mut(8 * self.parents.len());
        types
            .iter_mut()
            .skip(7)
            .step_by(8)
            .for_each(|byte| *byte = 0);
        fields
            .iter_mut()
            .skip(3)
            .step_by(4)
            .for_each(|byte| *byte = 0);
        catalogue
    }

    /// Blocks that are refused late: the catalogue for its last byte; the table for its last byte, and for its last cell in
    /// use, by a type that is none, by one that is not its parent's child and by a key that is too small or no number.
    pub fn refused_late(&self) -> Vec<Blocks> {
        let mut bad_catalogue = self.clone();
        *bad_catalogue.catalogue.last_mut().expect("it has a header") = 2;
        let mut late = vec![bad_catalogue, self.spoilt(self.table.len() - 1, 1)];
        if let Some(last) = self.cells.checked_sub(1) {
            let cell = 8 + last * CELL;
            for (at, byte) in [(0, 33), (0, 0), (0, 16), (1, 0), (2, 0)] {
                late.push(self.spoilt(cell + at, byte));
            }
        }
        late
    }

    /// The same with one byte of the table changed.
    fn spoilt(&self, at: usize, byte: u8) -> Blocks {
        let mut blocks = self.clone();
        blocks.table[at] = byte;
        blocks
    }
}
