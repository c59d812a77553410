//! A second reading of the rules of docs/CALLS.md: the catalogue as types, the table as a forest of segments, the calls as
//! searches along paths. It is the judge the store is compared with, so it shares nothing with it: no cell
//! arithmetic, no runs counted by level. Cell numbers appear only where a block is read or written.
//!
//! The functions here take byte slices and hand back what the store would leave behind. [`lent`] has the same
//! over lent slices, one for each function of the C face.

pub mod arguments;
pub mod calls;
pub mod catalogue;
pub mod dbd;
pub mod forest;
pub mod lent;
pub mod listing;
pub mod position;
pub mod reports;
pub mod status;
pub mod values;

pub use listing::listing;
pub use position::FRESH;
pub use reports::Way;
pub use status::Status;

use calls::{Answer, Call, Database};
use catalogue::Catalogue;
use forest::{capacity_of, Forest};
use position::Position;

/// All that a call leaves behind.
#[derive(Clone, PartialEq, Eq, Debug)]
pub struct Outcome {
    pub status: u8,
    pub type_code: u8,
    pub level: u8,
    pub length: u8,
    pub removed: u32,
    pub position: Vec<u8>,
    pub table: Vec<u8>,
    pub area: Vec<u8>,
}

impl Outcome {
    /// The result as the C face packs it.
    pub fn packed(&self) -> u64 {
        u64::from(self.status)
            | u64::from(self.type_code) << 8
            | u64::from(self.level) << 16
            | u64::from(self.length) << 24
            | u64::from(self.removed) << 32
    }
}

/// What the maker of empty tables leaves behind.
#[derive(Clone, PartialEq, Eq, Debug)]
pub struct Made {
    pub status: u8,
    pub table: Vec<u8>,
}

/// What a report leaves behind.
#[derive(Clone, PartialEq, Eq, Debug)]
pub struct Report {
    pub status: u8,
    pub count: u32,
    pub out: Vec<u8>,
}

/// 0, or CX.
pub fn catalogue_check(catalogue: &[u8]) -> u8 {
    let status = match Catalogue::read(catalogue) {
        Some(_) => Status::Blank,
        None => Status::CX,
    };
    status.number()
}

/// CX, TX or 0.
pub fn table_check(catalogue: &[u8], table: &[u8]) -> u8 {
    let status = match Database::read(catalogue, table) {
        Ok(_) => Status::Blank,
        Err(refusal) => refusal,
    };
    status.number()
}

/// Makes an empty table in a slice of that length, or leaves it as it is with CX or TX.
pub fn table_make(catalogue: &[u8], slice: &[u8]) -> Made {
    match make(catalogue, slice.len()) {
        Ok(table) => Made {
            status: Status::Blank.number(),
            table,
        },
        Err(refusal) => Made {
            status: refusal.number(),
            table: slice.to_vec(),
        },
    }
}

fn make(catalogue: &[u8], length: usize) -> Result<Vec<u8>, Status> {
    let catalogue = Catalogue::read(catalogue).ok_or(Status::CX)?;
    let capacity = capacity_of(&catalogue, length).ok_or(Status::TX)?;
    Ok(Forest::empty(capacity).write(&catalogue))
}

/// One call: blocks and position are checked, in that order, before anything else.
pub fn call(
    catalogue: &[u8],
    table: &[u8],
    position: &[u8],
    number: u8,
    list: &[u8],
    area: &[u8],
) -> Outcome {
    attempt(catalogue, table, position, number, list, area).unwrap_or_else(|refusal| Outcome {
        status: refusal.number(),
        type_code: 0,
        level: 0,
        length: 0,
        removed: 0,
        position: position.to_vec(),
        table: table.to_vec(),
        area: area.to_vec(),
    })
}

fn attempt(
    catalogue: &[u8],
    table: &[u8],
    position: &[u8],
    number: u8,
    list: &[u8],
    area: &[u8],
) -> Result<Outcome, Status> {
    let mut database = Database::read(catalogue, table)?;
    let place = Position::read(&database.forest, position).ok_or(Status::PX)?;
    let answer = database.call(place, number, list, area)?;
    // Only the three calls that may change the table are written back, so that a get costs no rewriting.
    let is_get = matches!(Call::of_number(number), Some(Call::Get { .. }));
    let table_after = if is_get {
        table.to_vec()
    } else {
        database.forest.write(&database.catalogue)
    };
    let area_after = match &answer.subject {
        Some(subject) if is_get => overwritten(area, subject.data),
        _ => area.to_vec(),
    };
    Ok(outcome(&database, answer, table_after, area_after))
}

fn outcome(database: &Database, answer: Answer, table: Vec<u8>, area: Vec<u8>) -> Outcome {
    let (type_code, level, length) = match answer.subject {
        Some(subject) => (subject.type_code, subject.level, subject.data.len()),
        None => (0, 0, 0),
    };
    Outcome {
        status: answer.status.number(),
        type_code,
        level: level as u8,
        length: length as u8,
        removed: answer.removed as u32,
        position: answer.position.write(&database.forest).to_vec(),
        table,
        area,
    }
}

/// A slice with other bytes at its front; the rest stays.
fn overwritten(slice: &[u8], front: &[u8]) -> Vec<u8> {
    let mut bytes = slice.to_vec();
    bytes[..front.len()].copy_from_slice(front);
    bytes
}

/// A report: each hit is its cell number, two bytes, high first. An out that is too short is refused with AB.
pub fn report(
    way: Way,
    catalogue: &[u8],
    table: &[u8],
    list1: &[u8],
    list2: &[u8],
    out: &[u8],
) -> Report {
    let written = reports::hits(way, catalogue, table, list1, list2).and_then(|hits| {
        let bytes: Vec<u8> = hits
            .iter()
            .flat_map(|&cell| (cell as u16).to_be_bytes())
            .collect();
        if bytes.len() > out.len() {
            return Err(Status::AB);
        }
        Ok(bytes)
    });
    match written {
        Ok(bytes) => Report {
            status: Status::Blank.number(),
            count: bytes.len() as u32 / 2,
            out: overwritten(out, &bytes),
        },
        Err(refusal) => Report {
            status: refusal.number(),
            count: 0,
            out: out.to_vec(),
        },
    }
}
