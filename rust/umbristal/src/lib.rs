//! A hierarchical store that speaks DL/I, for Rust programs. What its calls do is proved.
//!
//! A [`Store`] owns a catalogue and a table, two plain blocks of bytes, and a position in them. It checks the
//! blocks when it is opened; from then on nothing but calls can change them, so that no call has to check again.
//! R33 and the like are rules of the manual, docs/CALLS.md.
//!
//! ```
//! use umbristal::{Argument, FieldNumber, Op, Status, Store, TypeCode};
//!
//! const UNIT: TypeCode = TypeCode(1);
//! const STEP: TypeCode = TypeCode(2);
//! const TRY: TypeCode = TypeCode(3);
//! const UNIT_KEY: FieldNumber = FieldNumber(1);
//! const STEP_KEY: FieldNumber = FieldNumber(2);
//!
//! # fn main() -> Result<(), Box<dyn std::error::Error>> {
//! # std::env::set_current_dir("../../crates/lister/data")?;
//! let mut store = Store::open(std::fs::read("CAT.HDC")?, std::fs::read("TAB.HDT")?)?;
//!
//! // GU: the step with key 14 of unit 07. By `found` a miss is an error, as a refusal is.
//! let step = [
//!     Argument::test(UNIT, UNIT_KEY, Op::Eq, b"07"),
//!     Argument::test(STEP, STEP_KEY, Op::Eq, b"14"),
//! ];
//! let found = store.get_unique(&step).found()?;
//! assert_eq!(found.data, b"14T");
//!
//! // ISRT: a try, under the step that the position is on.
//! store.insert(&[Argument::all(TRY)], b"S3")?;
//! assert_eq!(store.count(), 10);
//!
//! // Every try in the table, as get-next would show them. This only reads.
//! let tries: Vec<&[u8]> = store.segments(&[Argument::all(TRY)])?.map(|found| found.data).collect();
//! assert_eq!(tries, [b"P1", b"T1", b"P2", b"S3"]);
//!
//! // An error has the letters of the status table, and has changed nothing in the table.
//! let error = store.insert(&[Argument::all(UNIT)], b"07Z").unwrap_err();
//! assert_eq!(error.status(), Status::II);
//! assert_eq!(error.to_string(), "II: a twin has this unique key");
//! let error = store.insert(&[Argument::all(UNIT)], b"08").unwrap_err();
//! assert_eq!(error.to_string(), "AB: type 1 has 3 data bytes, not 2");
//!
//! let (_catalogue, table) = store.into_blocks();
//! assert_eq!(table.len(), 56);
//! # Ok(())
//! # }
//! ```
//!
//! | call | here | answers |
//! |---|---|---|
//! | GU, GHU | [`get_unique`](Store::get_unique), [`get_hold_unique`](Store::get_hold_unique) | [`Got`] |
//! | GN, GHN | [`get_next`](Store::get_next), [`get_hold_next`](Store::get_hold_next) | [`Got`] |
//! | GNP, GHNP | [`get_next_within_parent`](Store::get_next_within_parent), [`get_hold_next_within_parent`](Store::get_hold_next_within_parent) | [`Got`] |
//! | ISRT | [`insert`](Store::insert) | the new [`Segment`], or an [`Error`] |
//! | REPL | [`replace`](Store::replace) | the [`Segment`] as it is now, or an [`Error`] |
//! | DLET | [`delete`](Store::delete) | what was [`Deleted`], or an [`Error`] |

#![deny(missing_docs)]
#![deny(unsafe_op_in_unsafe_fn)]
#![doc(test(attr(deny(warnings))))]

mod argument;
mod calls;
mod catalogue;
mod dbd;
mod error;
mod got;
mod miss;
mod numbers;
mod position;
mod refused;
mod reports;
mod segment;
mod segments;
mod status;
mod store;
mod unknown;

pub use argument::{Argument, Op};
pub use dbd::{Catalogue, DbdError, DbdFault, PairError};
pub use error::Error;
pub use got::Got;
pub use miss::Miss;
pub use numbers::{CellNumber, FieldNumber, TypeCode};
pub use position::Place;
pub use refused::{MakeError, OpenError};
pub use segment::{Deleted, OwnedSegment, Segment};
pub use segments::Segments;
pub use status::Status;
pub use store::Store;
pub use unknown::UnknownName;
