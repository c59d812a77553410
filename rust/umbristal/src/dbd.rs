//! Catalogues with names, from DBD statements and back to them.

use crate::argument::{Argument, Op};
use crate::numbers::{FieldNumber, TypeCode};
use crate::refused::{MakeError, OpenError};
use crate::status::Status;
use crate::store::Store;
use crate::unknown::UnknownName;
use std::error;
use std::fmt;

/// How long a catalogue, a list of names and the statements of both can be.
const LONGEST: [usize; 3] = [520, 784, 4651];

/// A catalogue and the names of its data base, segments and fields: what DBD statements say (R73 to R84).
///
/// ```
/// use umbristal::{Catalogue, Op};
///
/// # fn main() -> Result<(), Box<dyn std::error::Error>> {
/// let catalogue = Catalogue::from_dbd(
///     b"DBD NAME=BENCH
///       SEGM NAME=UNIT, PARENT=0, BYTES=3
///       FIELD NAME=(UNO,SEQ,U), BYTES=2, START=1, TYPE=C",
/// )?;
/// let mut store = catalogue.clone().make(10)?;
/// let units = [store.all("UNIT")?];
/// store.insert(&units, b"07A")?;
/// let unit = [store.argument("UNIT", "UNO", Op::Eq, b"07")?];
/// assert_eq!(store.get_unique(&unit).found()?.data, b"07A");
/// assert_eq!(
///     String::from_utf8(catalogue.to_dbd())?,
///     "DBD NAME=BENCH\nSEGM NAME=UNIT,PARENT=0,BYTES=3\nFIELD NAME=(UNO,SEQ,U),BYTES=2,START=1,TYPE=C\n"
/// );
///
/// let refused = Catalogue::from_dbd(b"DBD NAME=BENCH\nSEGM NAME=UNIT,PARENT=SHIFT,BYTES=3\n").unwrap_err();
/// assert_eq!(refused.line(), 2);
/// assert_eq!(
///     refused.to_string(),
///     "line 2: no SEGM before this one has the name that PARENT= gives: SEGM NAME=UNIT,PARENT=SHIFT,BYTES=3"
/// );
/// # Ok(())
/// # }
/// ```
#[derive(Clone, PartialEq, Eq, Debug)]
pub struct Catalogue {
    block: Vec<u8>,
    names: Names,
}

/// A list of names that fits its catalogue.
#[derive(Clone, PartialEq, Eq, Debug)]
pub(crate) struct Names {
    block: Vec<u8>,
}

impl Catalogue {
    /// Reads statements.
    ///
    /// # Errors
    ///
    /// The first bad line, and its first fault.
    pub fn from_dbd(text: &[u8]) -> Result<Catalogue, DbdError> {
        let [mut block, mut names] = [LONGEST[0], LONGEST[1]].map(|long| vec![0; long]);
        let result = linked::dbd_read(text, &mut block, &mut names);
        let [number, types, fields, ..] = result.to_le_bytes();
        let Some(fault) = DbdFault::of_number(number) else {
            let [types, fields] = [types, fields].map(usize::from);
            block.truncate(8 + 8 * types + 4 * fields);
            names.truncate(16 + 8 * types + 8 * fields);
            let names = Names { block: names };
            return Ok(Catalogue { block, names });
        };
        Err(DbdError::new(fault, (result >> 32) as usize, text))
    }

    /// Takes a catalogue and a list of names that statements have given.
    ///
    /// # Errors
    ///
    /// CX for two blocks that no statements give. The error hands both back.
    pub fn from_blocks(block: Vec<u8>, names: Vec<u8>) -> Result<Catalogue, PairError> {
        match written(&block, &names) {
            Some(_) => Ok(Catalogue {
                block,
                names: Names { block: names },
            }),
            None => Err(PairError { block, names }),
        }
    }

    /// The statements, a line each; reading them gives this catalogue again.
    #[must_use]
    pub fn to_dbd(&self) -> Vec<u8> {
        written(&self.block, &self.names.block)
            .expect("it is proved that what was read can be written")
    }

    /// The catalogue's block.
    #[must_use]
    pub fn block(&self) -> &[u8] {
        &self.block
    }

    /// The block of the list of names.
    #[must_use]
    pub fn names(&self) -> &[u8] {
        &self.names.block
    }

    /// Hands the blocks back: catalogue, then names.
    #[must_use]
    pub fn into_blocks(self) -> (Vec<u8>, Vec<u8>) {
        (self.block, self.names.block)
    }

    /// The name of the data base.
    #[must_use]
    pub fn base(&self) -> &str {
        self.names.at(0)
    }

    /// The names of the segments, by their codes.
    pub fn segments(&self) -> impl Iterator<Item = &str> {
        self.names.segments()
    }

    /// Checks a table of this catalogue and opens a store that knows the names.
    ///
    /// # Errors
    ///
    /// TX for a bad table. The error hands the blocks back.
    pub fn open(self, table: Vec<u8>) -> Result<Store, OpenError> {
        let mut store = Store::open(self.block, table)?;
        store.names = Some(self.names);
        Ok(store)
    }

    /// An empty table of so many cells, in a store that knows the names.
    ///
    /// # Errors
    ///
    /// TX for more than [`Store::MOST_CELLS`]. The error hands the catalogue's block back.
    pub fn make(self, cells: usize) -> Result<Store, MakeError> {
        let mut store = Store::make(self.block, cells)?;
        store.names = Some(self.names);
        Ok(store)
    }
}

fn written(block: &[u8], names: &[u8]) -> Option<Vec<u8>> {
    let mut text = vec![0; LONGEST[2]];
    let result = linked::dbd_write(block, names, &mut text);
    text.truncate((result >> 32) as usize);
    (result as u8 == 0).then_some(text)
}

impl Names {
    /// The name at this place: the data base's, then those of the segments, then those of the fields.
    fn at(&self, place: usize) -> &str {
        let name = &self.block[8 + 8 * place..][..8];
        let name = std::str::from_utf8(name).expect("names are letters and digits");
        name.trim_end_matches(' ')
    }

    fn segments(&self) -> impl Iterator<Item = &str> {
        (1..=usize::from(self.block[5])).map(|code| self.at(code))
    }

    fn type_code(&self, segment: &str) -> Result<TypeCode, UnknownName> {
        match self.segments().position(|name| name == segment) {
            Some(place) => Ok(TypeCode(place as u8 + 1)),
            None => Err(UnknownName::segment(segment, self.segments())),
        }
    }

    /// The field of this name, of that type. Which fields are a type's, the catalogue says.
    fn field(&self, block: &[u8], segment: &str, field: &str) -> Result<FieldNumber, UnknownName> {
        let TypeCode(code) = self.type_code(segment)?;
        let types = usize::from(self.block[5]);
        let entries = block[8 + 8 * types..].chunks(4).enumerate();
        let own = |(at, entry): (usize, &[u8])| (entry[0] == code).then_some(at);
        let mut fields = entries.filter_map(own);
        match fields.clone().find(|at| self.at(1 + types + at) == field) {
            Some(at) => Ok(FieldNumber(at as u8 + 1)),
            None => {
                let known = fields.by_ref().map(|at| self.at(1 + types + at));
                Err(UnknownName::field(segment, field, known))
            }
        }
    }
}

/// By name, for a store that was opened or made by a [`Catalogue`].
impl Store {
    /// All segments of the type of this name.
    ///
    /// # Errors
    ///
    /// A name that no segment has, or a store without names.
    pub fn all(&self, segment: &str) -> Result<Argument<'static>, UnknownName> {
        Ok(Argument::all(self.type_code(segment)?))
    }

    /// The segments of the type of this name whose field of that name compares so with the value.
    ///
    /// # Errors
    ///
    /// A name that no segment has, or no field of that segment, or a store without names.
    pub fn argument<'v>(
        &self,
        segment: &str,
        field: &str,
        op: Op,
        value: &'v [u8],
    ) -> Result<Argument<'v>, UnknownName> {
        let number = self.field(segment, field)?;
        Ok(Argument::test(self.type_code(segment)?, number, op, value))
    }

    /// The code of the type of this name.
    ///
    /// # Errors
    ///
    /// As of [`all`](Store::all).
    pub fn type_code(&self, segment: &str) -> Result<TypeCode, UnknownName> {
        match &self.names {
            Some(names) => names.type_code(segment),
            None => Err(UnknownName::segment(segment, std::iter::empty())),
        }
    }

    /// The number of the field of this name, of that segment.
    ///
    /// # Errors
    ///
    /// As of [`argument`](Store::argument).
    pub fn field(&self, segment: &str, field: &str) -> Result<FieldNumber, UnknownName> {
        match &self.names {
            Some(names) => names.field(&self.catalogue, segment, field),
            None => Err(UnknownName::segment(segment, std::iter::empty())),
        }
    }

    /// The name of a type, in a store that knows names.
    #[must_use]
    pub fn segment_name(&self, type_code: TypeCode) -> Option<&str> {
        let place = usize::from(type_code.0.checked_sub(1)?);
        self.names.as_ref()?.segments().nth(place)
    }
}

/// What can be wrong with a line of statements (R78).
#[non_exhaustive]
#[derive(Clone, Copy, PartialEq, Eq, Hash, Debug)]
pub enum DbdFault {
    /// No statement, or none that can stand here; or a second key.
    Statement,
    /// A name that a segment has already, or a field of the same segment.
    Name,
    /// A parent that no segment before has as its name.
    Parent,
    /// A rule of catalogues is broken: CX.
    Rule,
}

impl DbdFault {
    fn of_number(number: u8) -> Option<DbdFault> {
        match number {
            0 => None,
            1 => Some(DbdFault::Statement),
            2 => Some(DbdFault::Name),
            3 => Some(DbdFault::Parent),
            _ => Some(DbdFault::Rule),
        }
    }

    fn words(self) -> &'static str {
        match self {
            DbdFault::Statement => {
                "no statement that can stand here. Expected is DBD NAME=name as the first statement and no other, \
                 SEGM NAME=name,PARENT=name,BYTES=number (PARENT=0 for the first SEGM alone), or behind a SEGM \
                 FIELD NAME=name,BYTES=number,START=number,TYPE=C or X, with NAME=(name,SEQ,U) or (name,SEQ,M) once a segment"
            }
            DbdFault::Name => "this name is taken: segments have names of their own, and so have the fields of one segment",
            DbdFault::Parent => "no SEGM before this one has the name that PARENT= gives",
            DbdFault::Rule => {
                "CX, against the rules of a catalogue: at most 32 segments of 1 to 120 bytes, each beneath the one before it \
                 or a segment above that, down to level 15; at most 64 fields, each within the bytes of its segment"
            }
        }
    }
}

/// Statements that were not read: the first bad line and its first fault.
#[derive(Clone, PartialEq, Eq, Debug)]
pub struct DbdError {
    fault: DbdFault,
    line: usize,
    /// The line itself; nothing at the end, which counts as a line.
    text: Option<String>,
}

impl DbdError {
    fn new(fault: DbdFault, line: usize, text: &[u8]) -> DbdError {
        let mut lines = text.split(|&byte| byte == b'\n');
        let said = lines.nth(line - 1).map(String::from_utf8_lossy);
        let text = said.map(|said| said.trim().chars().take(72).collect());
        let text = text.filter(|said: &String| !said.is_empty());
        DbdError { fault, line, text }
    }

    /// What is wrong.
    #[must_use]
    pub fn fault(&self) -> DbdFault {
        self.fault
    }

    /// The line, from 1. The end counts as a line.
    #[must_use]
    pub fn line(&self) -> usize {
        self.line
    }
}

impl fmt::Display for DbdError {
    fn fmt(&self, out: &mut fmt::Formatter) -> fmt::Result {
        let DbdError { fault, line, text } = self;
        match text {
            Some(text) => write!(out, "line {line}: {}: {text}", fault.words()),
            None => write!(
                out,
                "line {line}: the statements end without a DBD and a SEGM"
            ),
        }
    }
}

impl error::Error for DbdError {}

/// Two blocks that no statements give, as they were given; from [`Catalogue::from_blocks`].
#[derive(Clone, PartialEq, Eq)]
pub struct PairError {
    block: Vec<u8>,
    names: Vec<u8>,
}

impl PairError {
    /// CX.
    #[must_use]
    pub fn status(&self) -> Status {
        Status::CX
    }

    /// Hands the blocks back: catalogue, then names.
    #[must_use]
    pub fn into_blocks(self) -> (Vec<u8>, Vec<u8>) {
        (self.block, self.names)
    }
}

impl fmt::Debug for PairError {
    fn fmt(&self, out: &mut fmt::Formatter) -> fmt::Result {
        out.debug_struct("PairError")
            .field("catalogue_bytes", &self.block.len())
            .field("names_bytes", &self.names.len())
            .finish()
    }
}

impl fmt::Display for PairError {
    fn fmt(&self, out: &mut fmt::Formatter) -> fmt::Result {
        write!(
            out,
            "CX: no statements give this catalogue with these names"
        )
    }
}

impl error::Error for PairError {}
