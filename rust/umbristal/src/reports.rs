//! The reports: which segments match one list beneath another.

use crate::argument::{encode, Argument};
use crate::error::Error;
use crate::numbers::CellNumber;
use crate::store::{status, Store};
use face::Report;

impl Store {
    /// The segments that match `lower` beneath a segment that matches `upper` (R69), by get-next with `upper` and, for each
    /// segment got, get-next-within-parent with `lower`. The position stays.
    ///
    /// It is proved that the three reports show the same.
    ///
    /// ```
    /// use umbristal::{Argument, CellNumber, FieldNumber, Op, TypeCode};
    ///
    /// # fn main() -> Result<(), Box<dyn std::error::Error>> {
    /// # std::env::set_current_dir("../../crates/lister/data")?;
    /// # let store = umbristal::Store::open(std::fs::read("CAT.HDC")?, std::fs::read("TAB.HDT")?)?;
    /// let unit = [Argument::test(TypeCode(1), FieldNumber(1), Op::Eq, b"07")];
    /// let passed = [Argument::test(TypeCode(3), FieldNumber(3), Op::Eq, b"P")];
    /// let shown = store.report_nested(&unit, &passed)?;
    /// assert_eq!(shown, [CellNumber(2), CellNumber(5)]);
    /// assert_eq!(shown, store.report_joined(&unit, &passed)?);
    /// assert_eq!(shown, store.report_plain(&unit, &passed)?);
    /// # Ok(())
    /// # }
    /// ```
    ///
    /// # Errors
    ///
    /// A faulty list, as [`get_next`](Store::get_next); AC where a list is empty, or where the first type of `lower` does not
    /// lie beneath the last of `upper` (R70).
    pub fn report_nested(
        &self,
        upper: &[Argument],
        lower: &[Argument],
    ) -> Result<Vec<CellNumber>, Error> {
        self.report(linked::report_nested, upper, lower)
    }

    /// The same by get-next with both lists as one.
    ///
    /// # Errors
    ///
    /// As [`report_nested`](Store::report_nested).
    pub fn report_joined(
        &self,
        upper: &[Argument],
        lower: &[Argument],
    ) -> Result<Vec<CellNumber>, Error> {
        self.report(linked::report_joined, upper, lower)
    }

    /// The same by testing every cell.
    ///
    /// # Errors
    ///
    /// As [`report_nested`](Store::report_nested).
    pub fn report_plain(
        &self,
        upper: &[Argument],
        lower: &[Argument],
    ) -> Result<Vec<CellNumber>, Error> {
        self.report(linked::report_plain, upper, lower)
    }

    fn report(
        &self,
        report: Report,
        upper: &[Argument],
        lower: &[Argument],
    ) -> Result<Vec<CellNumber>, Error> {
        let (mut list1, mut list2) = (Vec::new(), Vec::new());
        let wrong1 = encode(&self.catalogue, upper, &mut list1);
        let wrong2 = encode(&self.catalogue, lower, &mut list2);
        let mut out = vec![0; 2 * self.count()];
        let result = report(&self.catalogue, &self.table, &list1, &list2, &mut out);
        let status = status(result as u8);
        if status.is_refusal() {
            return Err(Error::of(status, &[wrong1, wrong2]));
        }
        let hits = out.chunks_exact(2).take((result >> 32) as usize);
        Ok(hits
            .map(|cell| CellNumber(u16::from_be_bytes([cell[0], cell[1]])))
            .collect())
    }
}
