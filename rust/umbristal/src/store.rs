//! The store: its blocks, its position, and the one way to the proved calls.

use crate::argument::LONGEST_LIST;
use crate::catalogue;
use crate::dbd::Names;
use crate::error::Error;
use crate::numbers::{CellNumber, TypeCode};
use crate::position::{Place, Position};
use crate::refused::{MakeError, OpenError};
use crate::segment::Segment;
use crate::status::Status;
use std::fmt;

/// How many bytes the data of a segment can have; an area that long is long enough for every catalogue.
pub(crate) const LONGEST: usize = 120;

/// A catalogue, a table and a position, each of them sound for as long as the store lives.
///
/// Opening is the only check. It is proved that a call on sound blocks leaves them sound, and that a position stays
/// good where only calls through it change the table; since nothing else can reach these fields, every call may be
/// the fast one.
pub struct Store {
    pub(crate) catalogue: Vec<u8>,
    pub(crate) table: Vec<u8>,
    pub(crate) position: Position,
    /// The list of the call, with room for every one that is right, so that no call allocates.
    pub(crate) list: Vec<u8>,
    /// What gets write to, and inserts and replaces read from.
    pub(crate) area: [u8; LONGEST],
    /// Of a store that was opened or made by a `Catalogue`.
    pub(crate) names: Option<Names>,
}

/// The parts of a call's result.
pub(crate) struct Answer {
    pub(crate) status: Status,
    pub(crate) type_code: TypeCode,
    pub(crate) level: u8,
    pub(crate) length: usize,
    pub(crate) removed: usize,
}

impl Store {
    /// How many cells a table can have.
    pub const MOST_CELLS: usize = 4096;

    /// Checks the two blocks and takes them.
    ///
    /// ```
    /// use umbristal::{Status, Store};
    ///
    /// let refused = Store::open(b"no catalogue".to_vec(), b"no table".to_vec()).unwrap_err();
    /// assert_eq!(refused.status(), Status::CX);
    /// let (catalogue, table) = refused.into_blocks();
    /// assert_eq!((&catalogue[..], &table[..]), (&b"no catalogue"[..], &b"no table"[..]));
    /// ```
    ///
    /// # Errors
    ///
    /// CX for a bad catalogue, TX for a bad table. The error hands both blocks back.
    pub fn open(catalogue: Vec<u8>, table: Vec<u8>) -> Result<Store, OpenError> {
        let status = status(linked::table_check(&catalogue, &table));
        match status.is_done() {
            true => Ok(Store::of_sound(catalogue, table)),
            false => Err(OpenError {
                catalogue,
                table,
                status,
            }),
        }
    }

    /// An empty table of so many cells.
    ///
    /// ```
    /// use umbristal::{Argument, Status, Store, TypeCode};
    ///
    /// # fn main() -> Result<(), umbristal::Error> {
    /// // One type with three data bytes and no key; no fields.
    /// let catalogue = b"HDC\x00\x01\x01\x00\x00\x00\x03\x00\x00\x00\x00\x00\x00".to_vec();
    /// let mut store = Store::make(catalogue.clone(), 1)?;
    /// let unit = [Argument::all(TypeCode(1))];
    /// assert_eq!(store.insert(&unit, b"one")?.data, b"one");
    /// assert_eq!(store.insert(&unit, b"two").unwrap_err().status(), Status::FX);
    ///
    /// let refused = Store::make(catalogue.clone(), 4097).unwrap_err();
    /// assert_eq!(refused.to_string(), "TX: a table has at most 4096 cells, not 4097");
    /// assert_eq!(refused.into_catalogue(), catalogue);
    /// # Ok(())
    /// # }
    /// ```
    ///
    /// # Errors
    ///
    /// CX for a bad catalogue, TX for more than [`MOST_CELLS`](Store::MOST_CELLS). The error hands the catalogue back.
    pub fn make(catalogue: Vec<u8>, cells: usize) -> Result<Store, MakeError> {
        let mut table = vec![0; linked::parts::table_size(&catalogue, cells)];
        let status = status(linked::table_make(&catalogue, &mut table));
        let reason = match status {
            Status::TX => Error::TooManyCells {
                most: Store::MOST_CELLS,
                asked: cells,
            },
            _ => Error::Refused(status),
        };
        match status.is_done() {
            true => Ok(Store::of_sound(catalogue, table)),
            false => Err(MakeError { catalogue, reason }),
        }
    }

    fn of_sound(catalogue: Vec<u8>, table: Vec<u8>) -> Store {
        Store {
            catalogue,
            table,
            position: Position::FRESH,
            list: Vec::with_capacity(LONGEST_LIST),
            area: [0; LONGEST],
            names: None,
        }
    }

    /// Hands the blocks back: catalogue, then table.
    #[must_use]
    pub fn into_blocks(self) -> (Vec<u8>, Vec<u8>) {
        (self.catalogue, self.table)
    }

    /// The catalogue's block.
    #[must_use]
    pub fn catalogue(&self) -> &[u8] {
        &self.catalogue
    }

    /// The table's block, as the calls so far have left it: what is to be saved.
    #[must_use]
    pub fn table(&self) -> &[u8] {
        &self.table
    }

    /// How many segments there are.
    #[must_use]
    pub fn count(&self) -> usize {
        catalogue::count(&self.table)
    }

    /// How many there can be.
    #[must_use]
    pub fn cells(&self) -> usize {
        catalogue::cells(&self.table)
    }

    /// The segment in a cell, where there is one. This is no call: the position stays.
    #[must_use]
    pub fn segment_at(&self, cell: CellNumber) -> Option<Segment<'_>> {
        catalogue::segment(&self.catalogue, &self.table, cell)
    }

    /// Where the position is.
    #[must_use]
    pub fn place(&self) -> Place {
        self.position.place()
    }

    /// The segment that get-next-within-parent stays beneath.
    #[must_use]
    pub fn parentage(&self) -> Option<CellNumber> {
        self.position.parentage()
    }

    /// Whether the segment that the place is on can be replaced or deleted.
    #[must_use]
    pub fn is_held(&self) -> bool {
        self.position.is_held()
    }

    /// A fresh position: before the first cell, no parentage, no hold.
    pub fn rewind(&mut self) {
        self.position = Position::FRESH;
    }

    /// One call through the store's own position, with the list that is taken and so many bytes of the area.
    #[inline]
    pub(crate) fn call(&mut self, number: u8, lent: usize) -> Answer {
        // SAFETY: the blocks were checked when the store was opened, or made by the maker. The position was fresh
        // then, and only calls through it, and fresh positions by `rewind`, have come since.
        let result = unsafe {
            linked::call_sound(
                &self.catalogue,
                &mut self.table,
                &mut self.position.0,
                number,
                &self.list,
                &mut self.area[..lent],
            )
        };
        Answer::of(result)
    }
}

/// A clone has room of its own for lists.
impl Clone for Store {
    fn clone(&self) -> Store {
        Store {
            position: self.position,
            names: self.names.clone(),
            ..Store::of_sound(self.catalogue.clone(), self.table.clone())
        }
    }
}

/// Without the blocks, which can be long.
impl fmt::Debug for Store {
    fn fmt(&self, out: &mut fmt::Formatter) -> fmt::Result {
        out.debug_struct("Store")
            .field("count", &self.count())
            .field("cells", &self.cells())
            .field("place", &self.place())
            .field("parentage", &self.parentage())
            .field("held", &self.is_held())
            .finish_non_exhaustive()
    }
}

impl Answer {
    #[inline]
    fn of(result: u64) -> Answer {
        let [number, type_code, level, length] = (result as u32).to_le_bytes();
        Answer {
            status: status(number),
            type_code: TypeCode(type_code),
            level,
            length: length.into(),
            removed: (result >> 32) as usize,
        }
    }
}

/// The status of that number. It is proved that the store answers with none but those of its table.
#[inline]
pub(crate) fn status(number: u8) -> Status {
    Status::of_number(number).expect("a status of the table")
}
