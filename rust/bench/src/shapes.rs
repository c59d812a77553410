//! The tables on which a call could cost most, in cells as large as the sample's.

use crate::sample::{serial, CELL, LENGTH};
use crate::work::Done;

/// How many cells the tables have.
pub const SIZES: [usize; 3] = [64, 512, 4096];

/// How many types lie on the longest path, how many there can be, and how many are then beside that path.
pub const LEVELS: u8 = 15;
const TYPES: usize = 32;
const BESIDE: usize = TYPES - LEVELS as usize;

/// The types of the shallow shapes.
pub const ROOT: u8 = 1;
pub const CHILD: u8 = 2;
pub const PARENT: u8 = 2;
pub const GRANDCHILD: u8 = 3;

#[derive(Clone, Copy, PartialEq, Eq, Debug)]
pub enum Shape {
    /// One root, and everything else its child: a parent lies far before its last child.
    Children,
    /// One root with parents, each with one child: many parents far behind the root.
    Parents,
    /// Paths of fifteen types, one after the other: every cell can be tested, and the path ends all the time.
    Paths,
    /// One path of fourteen types, and everything else at level 15: all fourteen lie far before.
    Deep,
    /// Roots alone, and one cell free: a new one is held against all the others.
    Twins,
    /// The same with packed keys of the longest length.
    Packed,
    /// Groups of all the types that a catalogue can have.
    Types,
}

impl Shape {
    pub const ALL: [Shape; 7] = [
        Shape::Children,
        Shape::Parents,
        Shape::Paths,
        Shape::Deep,
        Shape::Twins,
        Shape::Packed,
        Shape::Types,
    ];

    /// The shape in a table of so many cells.
    pub fn blocks(self, size: usize) -> Blocks {
        let chain = 0..LEVELS;
        let deep = usize::from(LEVELS);
        let (parents, used): (Vec<u8>, usize) = match self {
            Shape::Children => (vec![0, ROOT], size),
            Shape::Parents => (vec![0, ROOT, PARENT], 1 + (size - 1) / 2 * 2),
            Shape::Paths => (chain.collect(), size / deep * deep),
            Shape::Deep => (chain.collect(), size),
            Shape::Twins | Shape::Packed => (vec![0], size - 1),
            Shape::Types => (chain.chain([LEVELS - 1; BESIDE]).collect(), size),
        };
        let code = |cell: usize| match self {
            Shape::Children => 1 + cell.min(1),
            Shape::Parents if cell == 0 => 1,
            Shape::Parents => 3 - cell % 2,
            Shape::Paths => 1 + cell % deep,
            Shape::Deep => 1 + cell.min(deep - 1),
            Shape::Twins | Shape::Packed => 1,
            Shape::Types => 1 + cell % TYPES,
        };
        let key = match self {
            Shape::Packed => Key::Packed,
            _ => Key::Bytes,
        };
        Blocks::new(&parents, key, size, (0..used).map(|cell| code(cell) as u8))
    }
}

/// How a cell has its number as key.
#[derive(Clone, Copy, PartialEq, Eq, Debug)]
enum Key {
    Bytes,
    Packed,
}

/// The bytes of a packed key.
const PACKED: usize = 16;

impl Key {
    /// Length and value type, as an entry has them.
    fn entry(self) -> (u8, u8) {
        match self {
            Key::Bytes => (2, 0),
            Key::Packed => (PACKED as u8, 1),
        }
    }
}

/// A catalogue and a table of a shape.
pub struct Blocks {
    pub catalogue: Vec<u8>,
    pub table: Vec<u8>,
    /// The type of each cell that is in use.
    pub codes: Vec<u8>,
    key: Key,
}

impl Blocks {
    /// Types of these parents, each with its first bytes as key and as field. A cell has its number there, and at
    /// its end as in the sample.
    fn new(parents: &[u8], key: Key, size: usize, codes: impl Iterator<Item = u8>) -> Blocks {
        let (long, value) = key.entry();
        let types = parents.len() as u8;
        let mut catalogue = b"HDC\x00\x01".to_vec();
        catalogue.extend([types, types, 0]);
        for &parent in parents {
            catalogue.extend([parent, LENGTH as u8, MULTIPLE, 1, long, 0, 0, value]);
        }
        for code in 1..=types {
            catalogue.extend([code, 1, long, value]);
        }
        let codes: Vec<u8> = codes.collect();
        let mut table = b"HDT\x00\x01".to_vec();
        table.push(CELL as u8);
        table.extend((codes.len() as u16).to_be_bytes());
        for (cell, &code) in codes.iter().enumerate() {
            table.push(code);
            table.extend(data(key, cell));
        }
        table.resize(8 + size * CELL, 0);
        Blocks {
            catalogue,
            table,
            codes,
            key,
        }
    }

    /// The data of a cell.
    pub fn data(&self, cell: usize) -> [u8; LENGTH] {
        data(self.key, cell)
    }

    /// The last cell of a type.
    pub fn last_of(&self, code: u8) -> usize {
        let last = self.codes.iter().rposition(|&other| other == code);
        last.expect("every type of the shape is there")
    }

    /// What comes to light where every segment of a type is found.
    pub fn every(&self, code: u8) -> Done {
        let cells = self.codes.iter().enumerate();
        let found = cells.filter(|(_, &other)| other == code);
        found.fold(Done { count: 0, sum: 0 }, |done, (cell, _)| Done {
            count: done.count + 1,
            sum: done.sum + serial(&self.data(cell)),
        })
    }
}

/// The key kind in which twins may have the same key.
const MULTIPLE: u8 = 2;

fn data(key: Key, cell: usize) -> [u8; LENGTH] {
    let mut data = [b'.'; LENGTH];
    let number = (cell as u16).to_be_bytes();
    match key {
        Key::Bytes => data[..2].copy_from_slice(&number),
        Key::Packed => data[..PACKED].copy_from_slice(&packed(cell)),
    }
    data[LENGTH - 2..].copy_from_slice(&number);
    data
}

/// A number in packed decimal, with a plus.
fn packed(number: usize) -> [u8; PACKED] {
    let mut bytes = [0; PACKED];
    let mut left = number;
    let mut digit = || {
        let last = left % 10;
        left /= 10;
        last as u8
    };
    let (last, front) = bytes.split_last_mut().expect("there are some");
    *last = digit() << 4 | 0xC;
    for byte in front.iter_mut().rev() {
        *byte = digit() | digit() << 4;
    }
    bytes
}

/// An argument that asks for a type alone.
pub fn any(code: u8) -> Vec<u8> {
    vec![code, 0]
}

/// An argument with a test that every segment of the type passes.
pub fn tested(code: u8) -> Vec<u8> {
    vec![code, 6, code, 0, 0]
}

/// The same on a packed field.
pub fn tested_packed(code: u8) -> Vec<u8> {
    [&[code, 6, code], &packed(0)[..]].concat()
}

/// An argument with a test that the segment in this cell passes, and no other.
pub fn exactly(code: u8, cell: usize) -> Vec<u8> {
    let [high, low] = (cell as u16).to_be_bytes();
    vec![code, 1, code, high, low]
}
