//! The position, as the store keeps it. Only calls change it, and nobody else can make one.

use crate::numbers::CellNumber;
use face::{FRESH, POSITION_SIZE};

/// Where a position is: on a cell or in a gap, and nowhere else (R18).
#[derive(Clone, Copy, PartialEq, Eq, Hash, Debug)]
pub enum Place {
    /// On the segment in that cell.
    On(CellNumber),
    /// In the gap before that cell.
    Before(CellNumber),
}

/// A position block that is fresh or that calls have left.
#[derive(Clone, Copy)]
pub(crate) struct Position(pub(crate) [u8; POSITION_SIZE]);

impl Position {
    pub(crate) const FRESH: Position = Position(FRESH);

    pub(crate) fn place(&self) -> Place {
        match self.0[0] {
            0 => Place::Before(self.cell_at(1)),
            _ => Place::On(self.cell_at(1)),
        }
    }

    pub(crate) fn parentage(&self) -> Option<CellNumber> {
        (self.0[3] != 0).then(|| self.cell_at(4))
    }

    pub(crate) fn is_held(&self) -> bool {
        self.0[6] != 0
    }

    /// The cell that the place is on, or in the gap before.
    #[inline]
    pub(crate) fn cell(&self) -> CellNumber {
        self.cell_at(1)
    }

    #[inline]
    fn cell_at(&self, byte: usize) -> CellNumber {
        CellNumber(u16::from_be_bytes([self.0[byte], self.0[byte + 1]]))
    }
}
