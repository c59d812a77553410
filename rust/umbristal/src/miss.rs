//! What a get answers that found nothing.

use crate::status::Status;
use std::error::Error;
use std::fmt;

/// Why a get has found nothing. As an error of the calls it is [`Error::Missed`](crate::Error::Missed).
#[non_exhaustive]
#[derive(Clone, Copy, PartialEq, Eq, Hash, Debug)]
pub enum Miss {
    /// Get-next with an empty list, and no cell is left (R50). The position is fresh now, so that the next get-next begins
    /// at the first root.
    GB,
    /// No segment matches (R51). Place and parentage stay, the hold is gone.
    GE,
    /// There is no parentage to stay beneath (R52). The place stays, the hold is gone.
    GP,
}

impl Miss {
    /// The miss of that status, if it is one.
    pub(crate) fn of(status: Status) -> Option<Miss> {
        match status {
            Status::GB => Some(Miss::GB),
            Status::GE => Some(Miss::GE),
            Status::GP => Some(Miss::GP),
            _ => None,
        }
    }

    /// The status of the same letters.
    #[must_use]
    pub fn status(self) -> Status {
        match self {
            Miss::GB => Status::GB,
            Miss::GE => Status::GE,
            Miss::GP => Status::GP,
        }
    }
}

impl fmt::Display for Miss {
    fn fmt(&self, out: &mut fmt::Formatter) -> fmt::Result {
        match self {
            // The status says more than a get can mean.
            Miss::GE => out.write_str("GE: no segment matches"),
            Miss::GB | Miss::GP => self.status().fmt(out),
        }
    }
}

impl Error for Miss {}
