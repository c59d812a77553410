//! The error of a name that is none.

use crate::error::Error;
use crate::status::Status;
use std::error;
use std::fmt;

/// A name that no segment has, or no field of a segment; with the names that there are.
#[derive(Clone, PartialEq, Eq, Debug)]
pub struct UnknownName {
    segment: String,
    field: Option<String>,
    known: Vec<String>,
}

impl UnknownName {
    pub(crate) fn segment<'n>(segment: &str, known: impl Iterator<Item = &'n str>) -> UnknownName {
        UnknownName {
            segment: segment.to_string(),
            field: None,
            known: known.map(str::to_string).collect(),
        }
    }

    pub(crate) fn field<'n>(
        segment: &str,
        field: &str,
        known: impl Iterator<Item = &'n str>,
    ) -> UnknownName {
        UnknownName {
            field: Some(field.to_string()),
            ..UnknownName::segment(segment, known)
        }
    }

    /// The status that a list with such a type or field would be refused with: AC or AK.
    #[must_use]
    pub fn status(&self) -> Status {
        match self.field {
            None => Status::AC,
            Some(_) => Status::AK,
        }
    }
}

impl fmt::Display for UnknownName {
    fn fmt(&self, out: &mut fmt::Formatter) -> fmt::Result {
        let letters = self.status().letters();
        let segment = &self.segment;
        match &self.field {
            None => write!(out, "{letters}: no segment {segment}")?,
            Some(field) => write!(out, "{letters}: segment {segment} has no field {field}")?,
        }
        match &self.known[..] {
            [] if self.field.is_some() => write!(out, ", and none at all"),
            [] => write!(out, "; the store knows no names"),
            known => write!(out, "; there is {}", known.join(", ")),
        }
    }
}

impl error::Error for UnknownName {}

/// Lets `?` pass an unknown name on as the error of the calls; the name itself is dropped.
impl From<UnknownName> for Error {
    fn from(unknown: UnknownName) -> Error {
        Error::Refused(unknown.status())
    }
}
