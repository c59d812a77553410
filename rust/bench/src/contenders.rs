//! Who is measured, at what.

use crate::asked::{self, Asked};
use crate::by_hand::ByHand;
use crate::calls::{Floor, Proved, Session};
use crate::figures::Figures;
use crate::measure::{agreed, timed, Anybody};
use crate::sample::Sample;
use crate::shapes::{Blocks, Shape};
use crate::users::Users;
use crate::work::Operation;
use crate::worst::Row;

/// Everybody who can be compared, by the name of the column.
pub const STORE: &str = "store";
pub const CRATE: &str = "Rust crate";
pub const BY_HAND: &str = "Rust by hand";
pub const LMDB: &str = "LMDB";
pub const LMDB_COPIED: &str = "LMDB, copied";
pub const SQLITE: &str = "SQLite";
pub const FLOOR: &str = "memmove";

pub const ALL: [&str; 7] = [STORE, CRATE, BY_HAND, LMDB, LMDB_COPIED, SQLITE, FLOOR];

/// The peers that were not installed when this was built, with the Debian package that brings each.
pub const MISSING: &[(&str, &str)] = &[
    #[cfg(not(lmdb))]
    (LMDB, "liblmdb-dev"),
    #[cfg(not(sqlite))]
    (SQLITE, "libsqlite3-dev"),
];

fn contenders(sample: &Sample) -> Vec<Anybody<'_, Operation>> {
    vec![
        Box::new(Session::<Proved>::new(sample)),
        Box::new(Users::new(sample)),
        Box::new(Session::<ByHand>::new(sample)),
        #[cfg(lmdb)]
        Box::new(crate::lmdb::Lmdb::new(sample)),
        #[cfg(lmdb)]
        Box::new(crate::lmdb::Copied::new(sample)),
        #[cfg(sqlite)]
        Box::new(crate::sqlite::Sqlite::new(sample)),
        Box::new(Floor::new(sample)),
    ]
}

/// Measures everybody at everything they offer on a sample.
pub fn measure(sample: &Sample, figures: &mut Figures<Operation>) {
    let mut contenders = contenders(sample);
    for operation in Operation::ALL {
        let done = agreed(&mut contenders, &operation);
        for (name, nanoseconds) in timed(&mut contenders, &operation) {
            let size = sample.segments.len();
            figures.add(operation, size, name, nanoseconds / done.count as f64);
        }
    }
    assert!(contenders.iter().all(|contender| contender.is_as_before()));
}

/// Those who work on the worst tables: the peers have no such tables.
fn on_blocks(blocks: &Blocks) -> Vec<Anybody<'_, Asked>> {
    vec![
        Box::new(asked::Session::<Proved>::new(blocks)),
        Box::new(asked::Session::<ByHand>::new(blocks)),
    ]
}

/// Measures the worst tables of so many cells.
pub fn measure_worst(size: usize, figures: &mut Figures<Row>) {
    for shape in Shape::ALL {
        let blocks = shape.blocks(size);
        let mut contenders = on_blocks(&blocks);
        for row in Row::ALL.into_iter().filter(|row| row.shape() == shape) {
            let asked = row.asked(&blocks);
            let done = agreed(&mut contenders, &asked);
            assert_eq!(done, row.expected(&blocks), "{row:?}");
            let parts = if row.is_whole() { 1 } else { done.count };
            for (name, nanoseconds) in timed(&mut contenders, &asked) {
                figures.add(row, size, name, nanoseconds / parts as f64);
            }
        }
        assert!(contenders.iter().all(|contender| contender.is_as_before()));
    }
}

#[cfg(test)]
mod tests;
