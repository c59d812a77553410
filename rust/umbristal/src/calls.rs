//! The nine calls.

use crate::argument::{encode, Argument};
use crate::catalogue;
use crate::error::Error;
use crate::got::Got;
use crate::miss::Miss;
use crate::numbers::TypeCode;
use crate::position::Place;
use crate::segment::{Deleted, Segment};
use crate::store::{Answer, Store, LONGEST};
use face::number::{DLET, GHN, GHNP, GHU, GN, GNP, GU, ISRT, REPL};

impl Store {
    /// GU: the first segment that matches, along the position (R33). The data are lent until the next call.
    ///
    /// ```
    /// # use umbristal::{Argument, FieldNumber, Op, TypeCode};
    /// # const UNIT: TypeCode = TypeCode(1);
    /// # const UNIT_KEY: FieldNumber = FieldNumber(1);
    /// # fn main() -> Result<(), Box<dyn std::error::Error>> {
    /// # std::env::set_current_dir("../../crates/lister/data")?;
    /// # let mut store = umbristal::Store::open(std::fs::read("CAT.HDC")?, std::fs::read("TAB.HDT")?)?;
    /// let unit = store.get_unique(&[Argument::test(UNIT, UNIT_KEY, Op::Ge, b"08")]).found()?;
    /// assert_eq!(unit.data, b"09B");
    /// # Ok(())
    /// # }
    /// ```
    ///
    /// A faulty list is refused: AC, AK, a value of another length than its field, or AJ for a packed value that is no number.
    #[doc(alias = "GU")]
    #[inline]
    pub fn get_unique(&mut self, list: &[Argument]) -> Got<'_> {
        self.get(GU, list)
    }

    /// GN: the first segment after the place that matches (R34). An empty list matches every segment; after the last one the
    /// answer is GB, and the next call begins at the first root.
    ///
    /// ```
    /// # fn main() -> Result<(), Box<dyn std::error::Error>> {
    /// # std::env::set_current_dir("../../crates/lister/data")?;
    /// # let mut store = umbristal::Store::open(std::fs::read("CAT.HDC")?, std::fs::read("TAB.HDT")?)?;
    /// let mut letters = Vec::new();
    /// while let Some(segment) = store.get_next(&[]).segment()? {
    ///     letters.push(segment.status.letters());
    /// }
    /// assert_eq!(letters, ["--", "--", "--", "GA", "--", "--", "GA", "GA", "--"]);
    /// # Ok(())
    /// # }
    /// ```
    ///
    /// Refuses as [`get_unique`](Store::get_unique) does.
    #[doc(alias = "GN")]
    #[inline]
    pub fn get_next(&mut self, list: &[Argument]) -> Got<'_> {
        self.get(GN, list)
    }

    /// GNP: as [`get_next`](Store::get_next), and beneath the parentage (R35).
    ///
    /// Refuses as [`get_unique`](Store::get_unique) does.
    #[doc(alias = "GNP")]
    #[inline]
    pub fn get_next_within_parent(&mut self, list: &[Argument]) -> Got<'_> {
        self.get(GNP, list)
    }

    /// GHU: as [`get_unique`](Store::get_unique), and the segment is held (R38).
    ///
    /// Refuses as [`get_unique`](Store::get_unique) does.
    #[doc(alias = "GHU")]
    #[inline]
    pub fn get_hold_unique(&mut self, list: &[Argument]) -> Got<'_> {
        self.get(GHU, list)
    }

    /// GHN: as [`get_next`](Store::get_next), and the segment is held (R38).
    ///
    /// Refuses as [`get_unique`](Store::get_unique) does.
    #[doc(alias = "GHN")]
    #[inline]
    pub fn get_hold_next(&mut self, list: &[Argument]) -> Got<'_> {
        self.get(GHN, list)
    }

    /// GHNP: as [`get_next_within_parent`](Store::get_next_within_parent), and the segment is held (R38).
    ///
    /// Refuses as [`get_unique`](Store::get_unique) does.
    #[doc(alias = "GHNP")]
    #[inline]
    pub fn get_hold_next_within_parent(&mut self, list: &[Argument]) -> Got<'_> {
        self.get(GHNP, list)
    }

    /// ISRT: a new segment of the last argument's type, beneath the first match of the arguments before it, along the
    /// position (R39 to R42).
    ///
    /// # Errors
    ///
    /// A faulty list, as [`get_unique`](Store::get_unique); AH for an empty one; AJ where the last argument has a test; data
    /// of another length than the type's; [`Error::NoParent`]; PD where a packed key is no number; II where a twin has the
    /// unique key; FX where no cell is free.
    #[doc(alias = "ISRT")]
    pub fn insert(&mut self, list: &[Argument], data: &[u8]) -> Result<Segment<'_>, Error> {
        let wrong_value = self.take_list(list);
        let type_code = list.last().map_or(TypeCode(0), Argument::type_code);
        let wrong_data = self.take_data(type_code, data);
        let answer = self.call(ISRT, lent(wrong_data));
        if answer.status.is_refusal() {
            return Err(Error::of(answer.status, &[wrong_value, wrong_data]));
        }
        match answer.status.is_done() {
            true => Ok(self.segment(answer)),
            false => Err(Error::NoParent),
        }
    }

    /// REPL: other data for the segment that is held; its key stays (R43).
    ///
    /// # Errors
    ///
    /// DJ where no segment is held; data of another length than the segment's; DA where the key would change.
    #[doc(alias = "REPL")]
    pub fn replace(&mut self, data: &[u8]) -> Result<Segment<'_>, Error> {
        self.take_list(&[]);
        // Without hold the length is right by itself: AB would come before DJ (R61).
        let held = self.held_type();
        let wrong_data = held.and_then(|type_code| self.take_data(type_code, data));
        let answer = self.call(REPL, lent(wrong_data));
        match answer.status.is_done() {
            true => Ok(self.segment(answer)),
            false => Err(Error::of(answer.status, &[wrong_data])),
        }
    }

    /// DLET: the segment that is held goes, and all beneath it (R44, R45).
    ///
    /// # Errors
    ///
    /// DJ where no segment is held.
    #[doc(alias = "DLET")]
    pub fn delete(&mut self) -> Result<Deleted, Error> {
        self.take_list(&[]);
        let answer = self.call(DLET, LONGEST);
        match answer.status.is_done() {
            true => Ok(Deleted {
                type_code: answer.type_code,
                level: answer.level,
                removed: answer.removed,
            }),
            false => Err(Error::of(answer.status, &[])),
        }
    }

    /// Always inlined: an answer that goes through memory costs a step half its time more, as it waits for its own parts.
    #[inline(always)]
    fn get(&mut self, number: u8, list: &[Argument]) -> Got<'_> {
        let wrong_value = self.take_list(list);
        let answer = self.call(number, LONGEST);
        if answer.status.is_done() {
            return Got::Segment(self.segment(answer));
        }
        match Miss::of(answer.status) {
            Some(miss) => Got::Nothing(miss),
            None => Got::Refused(Error::of(answer.status, &[wrong_value])),
        }
    }

    /// Puts a list where the next call finds it; the error where a value has the wrong length.
    #[inline]
    fn take_list(&mut self, list: &[Argument]) -> Option<Error> {
        self.list.clear();
        match list {
            // What a loop of get-next asks, and so worth no call.
            [] => None,
            _ => encode(&self.catalogue, list, &mut self.list),
        }
    }

    /// Puts the data of a segment of this type into the area; or tells that they have the wrong length.
    fn take_data(&mut self, type_code: TypeCode, data: &[u8]) -> Option<Error> {
        let needed = catalogue::data_length(&self.catalogue, type_code).unwrap_or(0);
        if needed != data.len() {
            return Some(Error::DataLength {
                type_code,
                needed,
                given: data.len(),
            });
        }
        self.area[..needed].copy_from_slice(data);
        None
    }

    fn held_type(&self) -> Option<TypeCode> {
        match self.place() {
            Place::On(cell) if self.is_held() => Some(self.segment_at(cell)?.type_code),
            _ => None,
        }
    }

    /// The segment of a call that was done: the position is on it, and its data stand in the area.
    #[inline]
    fn segment(&self, answer: Answer) -> Segment<'_> {
        Segment {
            cell: self.position.cell(),
            type_code: answer.type_code,
            level: answer.level,
            data: &self.area[..answer.length],
            status: answer.status,
        }
    }
}

/// How much of the area is lent: nothing with data of the wrong length, so that the store finds the first reason to refuse,
/// which is AB if there is no other before it (R61).
fn lent(wrong_data: Option<Error>) -> usize {
    match wrong_data {
        Some(_) => 0,
        None => LONGEST,
    }
}
