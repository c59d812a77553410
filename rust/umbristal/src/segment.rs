//! Segments, as calls hand them back.

use crate::numbers::{CellNumber, TypeCode};
use crate::status::Status;

/// A segment, its data lent by the store. What is to be kept longer than the next call is copied by
/// [`to_owned`](Segment::to_owned), or part by part.
#[non_exhaustive]
#[derive(Clone, Copy, PartialEq, Eq, Hash, Debug)]
pub struct Segment<'s> {
    /// The cell that it lies in.
    pub cell: CellNumber,
    /// Its type.
    pub type_code: TypeCode,
    /// Its level; a root has level 1.
    pub level: u8,
    /// Its data.
    pub data: &'s [u8],
    /// Blank; or GA or GK where a get-next with an empty list has left a level or a type (R49).
    pub status: Status,
}

impl Segment<'_> {
    /// A copy with data of its own.
    #[must_use]
    pub fn to_owned(&self) -> OwnedSegment {
        OwnedSegment {
            cell: self.cell,
            type_code: self.type_code,
            level: self.level,
            data: self.data.to_vec(),
            status: self.status,
        }
    }
}

/// A [`Segment`] with data of its own.
#[non_exhaustive]
#[derive(Clone, PartialEq, Eq, Hash, Debug)]
pub struct OwnedSegment {
    /// The cell that it lay in.
    pub cell: CellNumber,
    /// Its type.
    pub type_code: TypeCode,
    /// Its level; a root has level 1.
    pub level: u8,
    /// Its data.
    pub data: Vec<u8>,
    /// As in [`Segment::status`].
    pub status: Status,
}

/// What a delete has taken away.
#[non_exhaustive]
#[derive(Clone, Copy, PartialEq, Eq, Hash, Debug)]
pub struct Deleted {
    /// The type of the segment that was held.
    pub type_code: TypeCode,
    /// Its level.
    pub level: u8,
    /// How many segments went: the one that was held and all beneath it.
    pub removed: usize,
}
