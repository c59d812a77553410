//! The answer of a get.

use crate::error::Error;
use crate::miss::Miss;
use crate::segment::Segment;
use crate::status::Status;

/// What a get answers. Calls that follow act along the position, and after a get that found nothing this is where it was
/// before. So a get is no `Result`, of which a miss would be the good half: first it is said what a miss is.
///
/// | | a segment | a miss | a refusal |
/// |---|---|---|---|
/// | [`found`](Got::found) | `Ok(segment)` | `Err` | `Err` |
/// | [`segment`](Got::segment), for loops | `Ok(Some(segment))` | `Ok(None)` | `Err` |
/// | `match` | `Segment` | `Nothing` | `Refused` |
///
/// Here unit 08 is not there, and `found` passes that on before anything is inserted:
///
/// ```
/// use umbristal::{Argument, Error, FieldNumber, Op, Store, TypeCode};
///
/// fn add(store: &mut Store, unit: &[Argument], step: &[Argument]) -> Result<(), Error> {
///     store.get_unique(unit).found()?;
///     store.insert(step, b"15P")?;
///     Ok(())
/// }
///
/// # fn main() -> Result<(), Box<dyn std::error::Error>> {
/// # std::env::set_current_dir("../../crates/lister/data")?;
/// # let mut store = Store::open(std::fs::read("CAT.HDC")?, std::fs::read("TAB.HDT")?)?;
/// let unit = [Argument::test(TypeCode(1), FieldNumber(1), Op::Eq, b"08")];
/// let step = [Argument::all(TypeCode(2))];
/// let error = add(&mut store, &unit, &step).unwrap_err();
/// assert_eq!(error.to_string(), "GE: no segment matches");
/// assert_eq!(store.count(), 9);
/// # Ok(())
/// # }
/// ```
///
/// With each of these in place of its first line the step would land beneath another unit. A get as a statement is a warning,
/// which is denied here; the others are errors.
///
/// ```compile_fail
/// # #![deny(warnings)]
/// # use umbristal::{Argument, Error, Store};
/// # fn add(store: &mut Store, unit: &[Argument], step: &[Argument]) -> Result<(), Error> {
/// store.get_unique(unit);
/// store.insert(step, b"15P")?;
/// # Ok(())
/// # }
/// # fn main() {
/// #     let _ = add;
/// # }
/// ```
///
/// A `?` that would pass a refusal on and not the miss:
///
/// ```compile_fail,E0277
/// # #![deny(warnings)]
/// # use umbristal::{Argument, Error, Store};
/// # fn add(store: &mut Store, unit: &[Argument], step: &[Argument]) -> Result<(), Error> {
/// let _unit = store.get_unique(unit)?;
/// store.insert(step, b"15P")?;
/// # Ok(())
/// # }
/// # fn main() {
/// #     let _ = add;
/// # }
/// ```
///
/// An `Ok` that would be a miss too:
///
/// ```compile_fail,E0308
/// # #![deny(warnings)]
/// # use umbristal::{Argument, Error, Store};
/// # fn add(store: &mut Store, unit: &[Argument], step: &[Argument]) -> Result<(), Error> {
/// if let Ok(_) = store.get_unique(unit) {
///     store.insert(step, b"15P")?;
/// }
/// # Ok(())
/// # }
/// # fn main() {
/// #     let _ = add;
/// # }
/// ```
///
/// ```compile_fail,E0599
/// # #![deny(warnings)]
/// # use umbristal::{Argument, Error, Store};
/// # fn add(store: &mut Store, unit: &[Argument], step: &[Argument]) -> Result<(), Error> {
/// if store.get_unique(unit).is_ok() {
///     store.insert(step, b"15P")?;
/// }
/// # Ok(())
/// # }
/// # fn main() {
/// #     let _ = add;
/// # }
/// ```
#[must_use = "a get that found nothing leaves the place where it was: ask by `found`, or match"]
#[derive(Clone, Copy, PartialEq, Eq, Hash, Debug)]
pub enum Got<'s> {
    /// The segment; the position is on it.
    Segment(Segment<'s>),
    /// Nothing, and why.
    Nothing(Miss),
    /// The store has refused, and nothing has changed.
    Refused(Error),
}

impl<'s> Got<'s> {
    /// The segment, for where it must be there.
    ///
    /// # Errors
    ///
    /// [`Error::Missed`] where the get found nothing, and the refusal.
    #[inline]
    pub fn found(self) -> Result<Segment<'s>, Error> {
        match self {
            Got::Segment(segment) => Ok(segment),
            Got::Nothing(miss) => Err(Error::Missed(miss)),
            Got::Refused(error) => Err(error),
        }
    }

    /// The segment if there is one, for where nothing is an answer too: at the end of a loop, or before an insert of what is
    /// not there yet. The compiler does not ask whether the `Option` was looked at.
    ///
    /// # Errors
    ///
    /// The refusal.
    #[inline]
    pub fn segment(self) -> Result<Option<Segment<'s>>, Error> {
        match self {
            Got::Segment(segment) => Ok(Some(segment)),
            Got::Nothing(_) => Ok(None),
            Got::Refused(error) => Err(error),
        }
    }

    /// The status of the call.
    #[must_use = "a get that found nothing leaves the place where it was"]
    pub fn status(&self) -> Status {
        match self {
            Got::Segment(segment) => segment.status,
            Got::Nothing(miss) => miss.status(),
            Got::Refused(error) => error.status(),
        }
    }
}
