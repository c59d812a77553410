//! Argument lists.

use crate::catalogue;
use crate::error::Error;
use crate::numbers::{FieldNumber, TypeCode};

/// How many bytes a list has at most that is right: fifteen levels, each with a value of 120 bytes.
pub(crate) const LONGEST_LIST: usize = 15 * (3 + 120);

/// The comparison of a test; the segment's field stands left of it. Bytes compare unsigned, and the first that differs
/// decides (R16, R25); packed fields compare by their numbers (R88), and one that holds no number passes no test (R90).
#[non_exhaustive]
#[derive(Clone, Copy, PartialEq, Eq, Hash, Debug)]
#[repr(u8)]
pub enum Op {
    /// The field is the value.
    Eq = 1,
    /// It is another.
    Ne = 2,
    /// It is less.
    Lt = 3,
    /// It is less, or the value.
    Le = 4,
    /// It is greater.
    Gt = 5,
    /// It is greater, or the value.
    Ge = 6,
}

/// One argument of a list: a type, and perhaps a test of one of its fields. In a list each type lies beneath the
/// one before it; levels left out are implied (R29).
#[derive(Clone, Copy, PartialEq, Eq, Hash, Debug)]
pub struct Argument<'v> {
    type_code: TypeCode,
    test: Option<Test<'v>>,
}

#[derive(Clone, Copy, PartialEq, Eq, Hash, Debug)]
struct Test<'v> {
    field: FieldNumber,
    op: Op,
    value: &'v [u8],
}

impl<'v> Argument<'v> {
    /// All segments of a type.
    #[must_use]
    pub const fn all(type_code: TypeCode) -> Argument<'v> {
        Argument {
            type_code,
            test: None,
        }
    }

    /// The segments of a type whose field compares so with the value. A value of another length than the field, and for a
    /// packed field one that is no number, is refused by the call that is given the argument.
    #[must_use]
    pub const fn test(
        type_code: TypeCode,
        field: FieldNumber,
        op: Op,
        value: &'v [u8],
    ) -> Argument<'v> {
        Argument {
            type_code,
            test: Some(Test { field, op, value }),
        }
    }

    pub(crate) fn type_code(&self) -> TypeCode {
        self.type_code
    }
}

/// Writes the bytes of a list. A value of the wrong length would shift what stands behind it: the list
/// then ends one byte short of that value, so that the store itself finds the first fault. The error handed back is the
/// reason if that is AJ, which no other fault of such a list can be: with a packed value that is no number, which is AJ too,
/// the list ends.
pub(crate) fn encode(catalogue: &[u8], list: &[Argument], bytes: &mut Vec<u8>) -> Option<Error> {
    for argument in list {
        bytes.push(argument.type_code.0);
        let Some(Test { field, op, value }) = argument.test else {
            bytes.push(0);
            continue;
        };
        bytes.push(op as u8);
        bytes.push(field.0);
        match catalogue::field(catalogue, field) {
            Some((needed, _)) if needed != value.len() => {
                bytes.resize(bytes.len() + needed - 1, 0);
                return Some(Error::ValueLength {
                    field,
                    needed,
                    given: value.len(),
                });
            }
            Some((_, true)) if !is_number(value) => {
                bytes.extend(value);
                return None;
            }
            _ => bytes.extend(value),
        }
    }
    None
}

/// Whether packed bytes are a number: digits, and a sign in the last half byte (R87).
fn is_number(bytes: &[u8]) -> bool {
    let is_digits = |byte: &u8| byte >> 4 <= 9 && byte & 15 <= 9;
    bytes
        .split_last()
        .is_some_and(|(last, front)| front.iter().all(is_digits) && last >> 4 <= 9 && last & 15 > 9)
}
