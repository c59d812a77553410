//! The errors that hand blocks back.

use crate::error::Error;
use crate::status::Status;
use std::error;
use std::fmt;

/// Blocks that were not opened, as they were given; from [`Store::open`](crate::Store::open).
#[derive(Clone, PartialEq, Eq)]
pub struct OpenError {
    pub(crate) catalogue: Vec<u8>,
    pub(crate) table: Vec<u8>,
    pub(crate) status: Status,
}

impl OpenError {
    /// CX for a bad catalogue, TX for a bad table.
    #[must_use]
    pub fn status(&self) -> Status {
        self.status
    }

    /// Hands the blocks back: catalogue, then table.
    #[must_use]
    pub fn into_blocks(self) -> (Vec<u8>, Vec<u8>) {
        (self.catalogue, self.table)
    }
}

/// A catalogue for which no table was made, as it was given; from [`Store::make`](crate::Store::make).
#[derive(Clone, PartialEq, Eq)]
pub struct MakeError {
    pub(crate) catalogue: Vec<u8>,
    pub(crate) reason: Error,
}

impl MakeError {
    /// CX for a bad catalogue, TX for too many cells.
    #[must_use]
    pub fn status(&self) -> Status {
        self.reason.status()
    }

    /// What was wrong; of too many cells, how many were asked for.
    #[must_use]
    pub fn reason(&self) -> Error {
        self.reason
    }

    /// Hands the catalogue back.
    #[must_use]
    pub fn into_catalogue(self) -> Vec<u8> {
        self.catalogue
    }
}

/// The blocks by their lengths alone: they can be long, and `unwrap` prints this.
impl fmt::Debug for OpenError {
    fn fmt(&self, out: &mut fmt::Formatter) -> fmt::Result {
        out.debug_struct("OpenError")
            .field("status", &self.status)
            .field("catalogue_bytes", &self.catalogue.len())
            .field("table_bytes", &self.table.len())
            .finish()
    }
}

impl fmt::Debug for MakeError {
    fn fmt(&self, out: &mut fmt::Formatter) -> fmt::Result {
        out.debug_struct("MakeError")
            .field("reason", &self.reason)
            .field("catalogue_bytes", &self.catalogue.len())
            .finish()
    }
}

impl fmt::Display for OpenError {
    fn fmt(&self, out: &mut fmt::Formatter) -> fmt::Result {
        self.status.fmt(out)
    }
}

impl fmt::Display for MakeError {
    fn fmt(&self, out: &mut fmt::Formatter) -> fmt::Result {
        self.reason.fmt(out)
    }
}

impl error::Error for OpenError {}

impl error::Error for MakeError {}

/// Lets `?` pass a refused open on as the error of the calls; the blocks are dropped.
impl From<OpenError> for Error {
    fn from(refused: OpenError) -> Error {
        Error::Refused(refused.status)
    }
}

/// Lets `?` pass a refused make on as the error of the calls; the catalogue is dropped.
impl From<MakeError> for Error {
    fn from(refused: MakeError) -> Error {
        refused.reason
    }
}
