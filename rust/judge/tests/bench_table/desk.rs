//! The bench table, and a desk to work on it.

pub use judge::calls::{DLET, GHN, GHNP, GHU, GN, GNP, GU, ISRT, REPL};

use judge::{Outcome, FRESH};

/// A catalogue block from (parent, L, kind, key start, key length) and (type, start, length).
pub fn catalogue(types: &[[u8; 5]], fields: &[[u8; 3]]) -> Vec<u8> {
    let mut block = b"HDC\x00\x01".to_vec();
    block.extend([types.len() as u8, fields.len() as u8, 0]);
    for entry in types {
        block.extend(entry);
        block.extend([0, 0, 0]);
    }
    for entry in fields {
        block.extend(entry);
        block.push(0);
    }
    block
}

/// A table block of M cells from its first cells, each without its zeros.
pub fn table(cell_size: usize, capacity: usize, cells: &[&[u8]]) -> Vec<u8> {
    let mut block = b"HDT\x00\x01".to_vec();
    block.push(cell_size as u8);
    block.extend((cells.len() as u16).to_be_bytes());
    for cell in cells {
        let end = block.len() + cell_size;
        block.extend_from_slice(cell);
        block.resize(end, 0);
    }
    block.resize(8 + capacity * cell_size, 0);
    block
}

pub fn bench_catalogue() -> Vec<u8> {
    catalogue(
        &[
            [0, 3, 1, 1, 2],
            [1, 3, 1, 1, 2],
            [2, 2, 0, 0, 0],
            [1, 1, 0, 0, 0],
        ],
        &[[1, 1, 2], [2, 1, 2], [3, 1, 1], [2, 3, 1]],
    )
}

pub const BENCH_CELLS: [&[u8]; 9] = [
    b"\x0107A", b"\x0213P", b"\x03P1", b"\x0214T", b"\x03T1", b"\x03P2", b"\x04n", b"\x0109B",
    b"\x0214P",
];

pub fn bench_table() -> Vec<u8> {
    table(4, 12, &BENCH_CELLS)
}

/// A position block: on a cell or in a gap, with a parentage or none, held or not.
pub fn block(on: bool, cell: u16, parentage: Option<u16>, hold: bool) -> Vec<u8> {
    let mut bytes = vec![u8::from(on)];
    bytes.extend(cell.to_be_bytes());
    bytes.push(u8::from(parentage.is_some()));
    bytes.extend(parentage.unwrap_or(0).to_be_bytes());
    bytes.extend([u8::from(hold), 0]);
    bytes
}

/// A catalogue, a table and a position, on which calls follow one another.
pub struct Desk {
    pub catalogue: Vec<u8>,
    pub table: Vec<u8>,
    pub position: Vec<u8>,
}

impl Desk {
    pub fn bench() -> Desk {
        Desk::with(bench_catalogue(), bench_table())
    }

    pub fn with(catalogue: Vec<u8>, table: Vec<u8>) -> Desk {
        assert_eq!(judge::table_check(&catalogue, &table), 0);
        Desk {
            catalogue,
            table,
            position: FRESH.to_vec(),
        }
    }

    /// The same desk, on a cell, as a get leaves it.
    pub fn on(mut self, cell: u16) -> Desk {
        self.position = block(true, cell, None, false);
        self
    }

    /// One call; what it leaves behind is kept.
    pub fn call(&mut self, number: u8, list: &[u8], area: &[u8]) -> Outcome {
        let outcome = judge::call(
            &self.catalogue,
            &self.table,
            &self.position,
            number,
            list,
            area,
        );
        self.table = outcome.table.clone();
        self.position = outcome.position.clone();
        assert_eq!(judge::table_check(&self.catalogue, &self.table), 0);
        outcome
    }

    /// A get, with an area of seven sevens.
    pub fn get(&mut self, number: u8, list: &[u8]) -> Outcome {
        self.call(number, list, &[7; 7])
    }

    pub fn count(&self) -> usize {
        usize::from(self.table[6]) << 8 | usize::from(self.table[7])
    }

    pub fn cell(&self, number: usize) -> &[u8] {
        let size = usize::from(self.table[5]);
        &self.table[8 + number * size..][..size]
    }
}

/// Status, type, level, length, removed.
pub fn fields(outcome: &Outcome) -> (u8, u8, u8, u8, u32) {
    (
        outcome.status,
        outcome.type_code,
        outcome.level,
        outcome.length,
        outcome.removed,
    )
}
