//! The argument list: how it is read, what it matches, and how it is completed.

use super::catalogue::{Catalogue, TypeCode};
use super::forest::Segment;
use super::status::Status;
use super::values::{Value, ValueType};
use std::cmp::Ordering;
use std::ops::Range;

/// The comparison of a test; the segment's field stands left of it.
#[derive(Clone, Copy, PartialEq, Eq, Debug)]
pub enum Operator {
    Equal,
    NotEqual,
    Less,
    LessOrEqual,
    Greater,
    GreaterOrEqual,
}

impl Operator {
    fn accepts(self, order: Ordering) -> bool {
        match self {
            Operator::Equal => order == Ordering::Equal,
            Operator::NotEqual => order != Ordering::Equal,
            Operator::Less => order == Ordering::Less,
            Operator::LessOrEqual => order != Ordering::Greater,
            Operator::Greater => order == Ordering::Greater,
            Operator::GreaterOrEqual => order != Ordering::Less,
        }
    }
}

/// A qualification: a field of the segment against a value.
#[derive(Debug)]
pub struct Test<'a> {
    operator: Operator,
    field: Range<usize>,
    value_type: ValueType,
    value: Value<'a>,
}

impl Test<'_> {
    /// Whether these data bytes pass. A field without a value passes no test, whatever the operator.
    fn passed_by(&self, data: &[u8]) -> bool {
        let field = self.value_type.value_of(&data[self.field.clone()]);
        field.is_some_and(|field| self.operator.accepts(field.cmp(&self.value)))
    }
}

#[derive(Debug)]
pub struct Argument<'a> {
    pub type_code: TypeCode,
    pub test: Option<Test<'a>>,
}

impl Argument<'_> {
    /// Whether a segment of the argument's type satisfies it.
    fn satisfied_by(&self, segment: &Segment) -> bool {
        self.test
            .as_ref()
            .is_none_or(|test| test.passed_by(segment.data))
    }
}

/// Reads a list from the left; the first fault answers.
pub fn read_list<'a>(catalogue: &Catalogue, list: &'a [u8]) -> Result<Vec<Argument<'a>>, Status> {
    read_list_beneath(catalogue, None, list)
}

/// Reads a list whose first type must lie beneath the given one, if there is one.
pub fn read_list_beneath<'a>(
    catalogue: &Catalogue,
    outermost: Option<TypeCode>,
    list: &'a [u8],
) -> Result<Vec<Argument<'a>>, Status> {
    let mut rest = list;
    let mut arguments: Vec<Argument<'a>> = Vec::new();
    while !rest.is_empty() {
        let before = arguments.last().map(|argument| argument.type_code);
        arguments.push(read_argument(catalogue, before.or(outermost), &mut rest)?);
    }
    Ok(arguments)
}

/// Reads one argument off the front of `rest`.
fn read_argument<'a>(
    catalogue: &Catalogue,
    above: Option<TypeCode>,
    rest: &mut &'a [u8],
) -> Result<Argument<'a>, Status> {
    let type_code = take_byte(rest).ok_or(Status::AC)?;
    let known = catalogue.segment_type(type_code).is_some();
    if !known || above.is_some_and(|above| !catalogue.is_beneath(type_code, above)) {
        return Err(Status::AC);
    }
    let operator = match take_byte(rest).ok_or(Status::AJ)? {
        0 => None,
        1 => Some(Operator::Equal),
        2 => Some(Operator::NotEqual),
        3 => Some(Operator::Less),
        4 => Some(Operator::LessOrEqual),
        5 => Some(Operator::Greater),
        6 => Some(Operator::GreaterOrEqual),
        _ => return Err(Status::AJ),
    };
    let test = match operator {
        None => None,
        Some(operator) => Some(read_test(catalogue, type_code, operator, rest)?),
    };
    Ok(Argument { type_code, test })
}

/// Reads field number and value. The field number is judged before the value is looked for, and that it is all there
/// before it is read.
fn read_test<'a>(
    catalogue: &Catalogue,
    type_code: TypeCode,
    operator: Operator,
    rest: &mut &'a [u8],
) -> Result<Test<'a>, Status> {
    let number = take_byte(rest).ok_or(Status::AJ)?;
    let field = catalogue
        .field(number)
        .filter(|field| field.type_code == type_code)
        .ok_or(Status::AK)?;
    if rest.len() < field.bytes.len() {
        return Err(Status::AJ);
    }
    let (value, behind) = rest.split_at(field.bytes.len());
    *rest = behind;
    Ok(Test {
        operator,
        field: field.bytes.clone(),
        value_type: field.value,
        value: field.value.value_of(value).ok_or(Status::AJ)?,
    })
}

fn take_byte(rest: &mut &[u8]) -> Option<u8> {
    let (&first, behind) = rest.split_first()?;
    *rest = behind;
    Some(first)
}

/// Whether the last segment of a branch matches a list: it has the last type, and it and its ancestors satisfy
/// every argument for their type.
pub fn matches(list: &[Argument], branch: &[&Segment]) -> bool {
    let (Some(last), Some(segment)) = (list.last(), branch.last()) else {
        return true;
    };
    segment.type_code == last.type_code
        && branch.iter().all(|segment| {
            list.iter()
                .filter(|argument| argument.type_code == segment.type_code)
                .all(|argument| argument.satisfied_by(segment))
        })
}

/// One level of a completed list: a type, and the argument that names it. A level without one is implied.
#[derive(Clone, Copy, Debug)]
pub struct Level<'l> {
    type_code: TypeCode,
    argument: Option<&'l Argument<'l>>,
}

impl Level<'_> {
    /// Whether a segment is of this level's type and satisfies what the list says of it.
    pub fn admits(&self, segment: &Segment) -> bool {
        segment.type_code == self.type_code
            && self
                .argument
                .is_none_or(|argument| argument.satisfied_by(segment))
    }

    pub fn is_implied(&self) -> bool {
        self.argument.is_none()
    }
}

/// Completes a list with its implied levels, from the root type down to `lowest`.
pub fn complete<'l>(
    catalogue: &Catalogue,
    list: &'l [Argument<'l>],
    lowest: TypeCode,
) -> Vec<Level<'l>> {
    let level = |&type_code: &TypeCode| Level {
        type_code,
        argument: list.iter().find(|argument| argument.type_code == type_code),
    };
    catalogue.of(lowest).lineage.iter().map(level).collect()
}
