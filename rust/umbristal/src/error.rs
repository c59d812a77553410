//! The error of the calls.

use crate::miss::Miss;
use crate::numbers::{FieldNumber, TypeCode};
use crate::status::Status;
use std::error;
use std::fmt;

/// Why something was not done. The table is as it was, and so is the position, but for the hold where
/// [`status`](Error::status) is GE or GP, and for all of it where that is GB.
#[non_exhaustive]
#[derive(Clone, Copy, PartialEq, Eq, Hash, Debug)]
pub enum Error {
    /// The store has refused: a status of 20 or above.
    Refused(Status),
    /// A get has found nothing, and a segment was asked of it by [`Got::found`](crate::Got::found).
    Missed(Miss),
    /// An insert has found no segment to put the new one beneath (R51).
    NoParent,
    /// Data of another length than the segments of this type have.
    #[non_exhaustive]
    DataLength {
        /// The type of the segment.
        type_code: TypeCode,
        /// How many bytes its data have.
        needed: usize,
        /// How many were given.
        given: usize,
    },
    /// A value of another length than the field that it is compared with.
    #[non_exhaustive]
    ValueLength {
        /// The field.
        field: FieldNumber,
        /// How many bytes it has.
        needed: usize,
        /// How many the value has.
        given: usize,
    },
    /// More cells than a table can have.
    #[non_exhaustive]
    TooManyCells {
        /// How many there can be.
        most: usize,
        /// How many were asked for.
        asked: usize,
    },
}

impl Error {
    /// The status that says this: the store's own, GE without a parent, AB for data and AJ for a value of another length,
    /// TX for too many cells.
    #[must_use]
    pub fn status(self) -> Status {
        match self {
            Error::Refused(status) => status,
            Error::Missed(miss) => miss.status(),
            Error::NoParent => Status::GE,
            Error::DataLength { .. } => Status::AB,
            Error::ValueLength { .. } => Status::AJ,
            Error::TooManyCells { .. } => Status::TX,
        }
    }

    /// The error of a status that refuses. Where a wrong length is known which this status stands for, that is the reason.
    #[cold]
    pub(crate) fn of(status: Status, known: &[Option<Error>]) -> Error {
        let mut lengths = known.iter().flatten();
        let reason = lengths.find(|error| error.status() == status);
        reason.copied().unwrap_or(Error::Refused(status))
    }
}

/// The word behind a number of bytes.
fn bytes(count: usize) -> &'static str {
    match count {
        1 => "byte",
        _ => "bytes",
    }
}

impl fmt::Display for Error {
    fn fmt(&self, out: &mut fmt::Formatter) -> fmt::Result {
        let letters = self.status().letters();
        match self {
            Error::Refused(status) => status.fmt(out),
            Error::Missed(miss) => miss.fmt(out),
            Error::NoParent => write!(out, "{letters}: there is no parent to insert under"),
            Error::DataLength {
                type_code,
                needed,
                given,
            } => write!(
                out,
                "{letters}: type {type_code} has {needed} data {}, not {given}",
                bytes(*needed)
            ),
            Error::ValueLength {
                field,
                needed,
                given,
            } => write!(
                out,
                "{letters}: field {field} has {needed} {}, its value {given}",
                bytes(*needed)
            ),
            Error::TooManyCells { most, asked } => write!(
                out,
                "{letters}: a table has at most {most} cells, not {asked}"
            ),
        }
    }
}

impl error::Error for Error {}

impl From<Miss> for Error {
    fn from(miss: Miss) -> Error {
        Error::Missed(miss)
    }
}
