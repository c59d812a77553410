//! Every segment that matches a list, one after the other.

use crate::argument::Argument;
use crate::error::Error;
use crate::numbers::{CellNumber, TypeCode};
use crate::segment::Segment;
use crate::store::Store;
use std::iter::FusedIterator;
use std::vec;

/// The type that has no parent (R7).
const ROOT: TypeCode = TypeCode(1);

/// The segments that match a list; made by [`Store::segments`].
#[derive(Clone, Debug)]
#[must_use = "iterators are lazy and do nothing unless consumed"]
pub struct Segments<'s> {
    store: &'s Store,
    cells: vec::IntoIter<CellNumber>,
}

impl Store {
    /// Every segment that matches, in hierarchic order: those that get-next shows with this list from the start to the end.
    /// It only reads, so that several places can do it at once, and the position stays.
    ///
    /// It is no loop of calls, since a call wants the table for itself. An empty list shows the cells in order, a list the
    /// plain report of it, and it is proved that this is the same. Roots alone, which no report shows, are got by calls on
    /// a copy of the table. The status of each is blank.
    ///
    /// ```
    /// # fn main() -> Result<(), Box<dyn std::error::Error>> {
    /// # std::env::set_current_dir("../../crates/lister/data")?;
    /// # let store = umbristal::Store::open(std::fs::read("CAT.HDC")?, std::fs::read("TAB.HDT")?)?;
    /// let levels: Vec<u8> = store.segments(&[])?.map(|segment| segment.level).collect();
    /// assert_eq!(levels, [1, 2, 3, 2, 3, 3, 2, 1, 2]);
    /// # Ok(())
    /// # }
    /// ```
    ///
    /// # Errors
    ///
    /// A faulty list, as [`get_next`](Store::get_next).
    pub fn segments(&self, list: &[Argument]) -> Result<Segments<'_>, Error> {
        let cells = match list {
            [] => (0..self.count() as u16).map(CellNumber).collect(),
            [only] if only.type_code() == ROOT => self.roots(list)?,
            // A report wants two lists: the root above, which any list implies, or the first argument.
            [_] => self.report_plain(&[Argument::all(ROOT)], list)?,
            [first, rest @ ..] => self.report_plain(&[*first], rest)?,
        };
        Ok(Segments {
            store: self,
            cells: cells.into_iter(),
        })
    }

    /// The roots that match. No report shows roots: these are found by get-next, on a copy.
    fn roots(&self, list: &[Argument]) -> Result<Vec<CellNumber>, Error> {
        let mut copy = self.clone();
        copy.rewind();
        let mut cells = Vec::new();
        while let Some(root) = copy.get_next(list).segment()? {
            cells.push(root.cell);
        }
        Ok(cells)
    }
}

impl<'s> Iterator for Segments<'s> {
    type Item = Segment<'s>;

    fn next(&mut self) -> Option<Segment<'s>> {
        self.store.segment_at(self.cells.next()?)
    }

    fn size_hint(&self) -> (usize, Option<usize>) {
        self.cells.size_hint()
    }
}

impl ExactSizeIterator for Segments<'_> {}

impl FusedIterator for Segments<'_> {}
