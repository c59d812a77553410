//! The catalogue: segment types, their keys and their fields.

use super::values::ValueType;
use std::ops::Range;

/// A type code, counted from 1 as the catalogue counts it.
pub type TypeCode = u8;

/// How twins of a type are kept in order.
#[derive(Clone, Copy, PartialEq, Eq, Debug)]
pub enum KeyKind {
    None,
    Unique,
    Multiple,
}

/// One segment type.
#[derive(Debug)]
pub struct SegmentType {
    /// The types from the root type down to this one, itself included: its length is the level.
    pub lineage: Vec<TypeCode>,
    /// L, the number of data bytes.
    pub length: usize,
    pub kind: KeyKind,
    /// Where the key stands within the data bytes; empty with kind `None`.
    pub key: Range<usize>,
    pub key_value: ValueType,
}

impl SegmentType {
    pub fn level(&self) -> usize {
        self.lineage.len()
    }

    /// The parent type; the root type has none.
    pub fn parent(&self) -> Option<TypeCode> {
        self.lineage.iter().rev().nth(1).copied()
    }
}

/// One field: a stretch of the data bytes of one type.
#[derive(Debug)]
pub struct Field {
    pub type_code: TypeCode,
    pub bytes: Range<usize>,
    pub value: ValueType,
}

#[derive(Debug)]
pub struct Catalogue {
    types: Vec<SegmentType>,
    fields: Vec<Field>,
}

const MARK: &[u8] = b"HDC\x00\x01";
const HEADER: usize = 8;
const TYPE_ENTRY: usize = 8;
const FIELD_ENTRY: usize = 4;
const DEEPEST_LEVEL: usize = 15;
const LONGEST_PACKED: usize = 16;

impl Catalogue {
    /// Reads a block; `None` for a bad catalogue (R2 to R8).
    pub fn read(block: &[u8]) -> Option<Catalogue> {
        let (header, rest) = split(block, HEADER)?;
        let type_count = usize::from(header[5]);
        let field_count = usize::from(header[6]);
        let sound = header.starts_with(MARK)
            && (1..=32).contains(&type_count)
            && field_count <= 64
            && header[7] == 0;
        if !sound {
            return None;
        }
        let (type_entries, field_entries) = split(rest, TYPE_ENTRY * type_count)?;
        if field_entries.len() != FIELD_ENTRY * field_count {
            return None;
        }
        let mut catalogue = Catalogue {
            types: Vec::with_capacity(type_count),
            fields: Vec::with_capacity(field_count),
        };
        for entry in type_entries.chunks(TYPE_ENTRY) {
            let segment_type = catalogue.read_type(entry)?;
            catalogue.types.push(segment_type);
        }
        for entry in field_entries.chunks(FIELD_ENTRY) {
            let field = catalogue.read_field(entry)?;
            catalogue.fields.push(field);
        }
        Some(catalogue)
    }

    /// Reads the entry of the type that follows those already read.
    fn read_type(&self, entry: &[u8]) -> Option<SegmentType> {
        let length = usize::from(entry[1]);
        let (kind, start, key_length) = (entry[2], entry[3], entry[4]);
        if !(1..=120).contains(&length) || entry[5..7] != [0, 0] {
            return None;
        }
        let kind = match kind {
            0 => KeyKind::None,
            1 => KeyKind::Unique,
            2 => KeyKind::Multiple,
            _ => return None,
        };
        let key = match (kind, start, key_length) {
            (KeyKind::None, 0, 0) => 0..0,
            (KeyKind::None, _, _) => return None,
            _ => stretch(start, key_length, length)?,
        };
        let key_value = value_type(entry[7], &key)?;
        if kind == KeyKind::None && key_value != ValueType::Bytes {
            return None;
        }
        let lineage = self.lineage_of_next(entry[0])?;
        (lineage.len() <= DEEPEST_LEVEL).then_some(SegmentType {
            lineage,
            length,
            kind,
            key,
            key_value,
        })
    }

    /// The lineage of the next type, given its parent code. The parent must lie on the lineage of the type
    /// before it, which is what keeps the codes in hierarchic order.
    fn lineage_of_next(&self, parent: TypeCode) -> Option<Vec<TypeCode>> {
        let code = self.types.len() as TypeCode + 1;
        let mut lineage = match self.types.last() {
            None if parent == 0 => Vec::new(),
            None => return None,
            Some(previous) => {
                let depth = previous.lineage.iter().position(|&above| above == parent)?;
                previous.lineage[..=depth].to_vec()
            }
        };
        lineage.push(code);
        Some(lineage)
    }

    fn read_field(&self, entry: &[u8]) -> Option<Field> {
        let owner = self.segment_type(entry[0])?;
        let bytes = stretch(entry[1], entry[2], owner.length)?;
        Some(Field {
            type_code: entry[0],
            value: value_type(entry[3], &bytes)?,
            bytes,
        })
    }

    /// The type with that code, if it is one of 1..T.
    pub fn segment_type(&self, code: TypeCode) -> Option<&SegmentType> {
        self.types.get(usize::from(code).checked_sub(1)?)
    }

    /// The type with a code that is known to be good.
    pub fn of(&self, code: TypeCode) -> &SegmentType {
        &self.types[usize::from(code) - 1]
    }

    /// The field with that number, if it is one of 1..F.
    pub fn field(&self, number: u8) -> Option<&Field> {
        self.fields.get(usize::from(number).checked_sub(1)?)
    }

    /// Whether `lower` lies strictly beneath `upper`.
    pub fn is_beneath(&self, lower: TypeCode, upper: TypeCode) -> bool {
        lower != upper && self.of(lower).lineage.contains(&upper)
    }

    /// The largest L: what an area must offer.
    pub fn longest(&self) -> usize {
        self.types.iter().map(|each| each.length).max().unwrap_or(0)
    }

    /// C, the cell size: the type code and the largest L.
    pub fn cell_size(&self) -> usize {
        1 + self.longest()
    }
}

/// Start (counted from 1) and length as a range of data bytes, if it stays within them.
fn stretch(start: u8, length: u8, limit: usize) -> Option<Range<usize>> {
    let first = usize::from(start).checked_sub(1)?;
    let end = first + usize::from(length);
    (length >= 1 && end <= limit).then_some(first..end)
}

/// The value type with that number, if bytes so many may have it.
fn value_type(number: u8, bytes: &Range<usize>) -> Option<ValueType> {
    match number {
        0 => Some(ValueType::Bytes),
        1 if bytes.len() <= LONGEST_PACKED => Some(ValueType::Packed),
        _ => None,
    }
}

/// Splits a slice, or `None` if it is too short.
fn split(bytes: &[u8], at: usize) -> Option<(&[u8], &[u8])> {
    (bytes.len() >= at).then(|| bytes.split_at(at))
}
