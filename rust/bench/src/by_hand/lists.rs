//! Argument lists: read from the left, completed with their implied levels, and sought in one pass.

use super::blocks::{cell, Catalogue};
use super::values::number;
use face::status::{AC, AJ, AK};
use std::cmp::Ordering;
use std::ops::Range;

const MOST: usize = 15;

#[derive(Clone)]
pub struct Test<'l> {
    operator: u8,
    field: Range<usize>,
    value: Value<'l>,
}

/// What a field is held against.
#[derive(Clone)]
enum Value<'l> {
    Bytes(&'l [u8]),
    Number(i128),
}

impl Test<'_> {
    fn accepts(&self, data: &[u8]) -> bool {
        let field = &data[self.field.clone()];
        let order = match self.value {
            Value::Bytes(value) => field.cmp(value),
            Value::Number(value) => match number(field) {
                Some(found) => found.cmp(&value),
                None => return false,
            },
        };
        match self.operator {
            1 => order == Ordering::Equal,
            2 => order != Ordering::Equal,
            3 => order == Ordering::Less,
            4 => order != Ordering::Greater,
            5 => order == Ordering::Greater,
            _ => order != Ordering::Less,
        }
    }
}

/// One argument: a type, and perhaps a test.
#[derive(Clone)]
pub struct Argument<'l> {
    pub code: u8,
    pub test: Option<Test<'l>>,
}

/// A list that was read; each type lies beneath the one before it, so there are at most 15.
pub struct List<'l> {
    arguments: [Argument<'l>; MOST],
    count: usize,
}

impl<'l> List<'l> {
    pub fn empty() -> List<'l> {
        const NONE: Argument = Argument {
            code: 0,
            test: None,
        };
        List {
            arguments: [NONE; MOST],
            count: 0,
        }
    }

    pub fn arguments(&self) -> &[Argument<'l>] {
        &self.arguments[..self.count]
    }

    /// Reads more arguments behind those that are there; the first fault answers.
    pub fn read(&mut self, catalogue: Catalogue, mut rest: &'l [u8]) -> Result<(), u8> {
        while let Some((&code, behind)) = rest.split_first() {
            let known = (1..=catalogue.types()).contains(&code);
            let above = self.arguments().last().map_or(0, |before| before.code);
            if !known || (above != 0 && !catalogue.is_beneath(code, above)) {
                return Err(AC);
            }
            let (&operator, behind) = behind.split_first().ok_or(AJ)?;
            let test;
            (test, rest) = match operator {
                0 => (None, behind),
                1..=6 => read_test(catalogue, code, operator, behind)?,
                _ => return Err(AJ),
            };
            self.arguments[self.count] = Argument { code, test };
            self.count += 1;
        }
        Ok(())
    }
}

type TestAndRest<'l> = (Option<Test<'l>>, &'l [u8]);

fn read_test<'l>(
    catalogue: Catalogue,
    code: u8,
    operator: u8,
    rest: &'l [u8],
) -> Result<TestAndRest<'l>, u8> {
    let (&told, behind) = rest.split_first().ok_or(AJ)?;
    let (of, field, packed) = catalogue.field(told).ok_or(AK)?;
    if of != code {
        return Err(AK);
    }
    let value = behind.get(..field.len()).ok_or(AJ)?;
    let behind = &behind[field.len()..];
    let value = match packed {
        true => Value::Number(number(value).ok_or(AJ)?),
        false => Value::Bytes(value),
    };
    let test = Test {
        operator,
        field,
        value,
    };
    Ok((Some(test), behind))
}

/// A list completed down to its lowest type.
pub struct Levels<'a, 'l> {
    /// The level of each type on the way down, by code; 0 for the others.
    rank: [u8; 33],
    /// The argument for each level; none where the level is implied.
    arguments: [Option<&'a Argument<'l>>; MOST + 1],
    pub depth: u8,
}

impl<'a, 'l> Levels<'a, 'l> {
    pub fn complete(catalogue: Catalogue, list: &'a [Argument<'l>], lowest: u8) -> Levels<'a, 'l> {
        let depth = catalogue.level(lowest);
        let mut levels = Levels {
            rank: [0; 33],
            arguments: [None; MOST + 1],
            depth,
        };
        let mut named = list.iter().rev().peekable();
        let mut code = lowest;
        for level in (1..=depth).rev() {
            levels.rank[usize::from(code)] = level;
            levels.arguments[usize::from(level)] = named.next_if(|argument| argument.code == code);
            code = catalogue.parent(code);
        }
        levels
    }

    pub fn is_implied(&self, level: u8) -> bool {
        self.arguments[usize::from(level)].is_none()
    }

    pub fn rank_of(&self, code: u8) -> u8 {
        self.rank[usize::from(code)]
    }

    /// Whether a cell satisfies what the list says of its level.
    pub fn admits(&self, level: u8, cell: &[u8]) -> bool {
        let argument = self.arguments[usize::from(level)];
        argument
            .and_then(|argument| argument.test.as_ref())
            .is_none_or(|test| test.accepts(&cell[1..]))
    }

    /// The first match among some cells. `agreed` says how many levels of the path before them agree with the
    /// list, and is carried on.
    pub fn seek(
        &self,
        table: &[u8],
        size: usize,
        cells: Range<usize>,
        agreed: &mut u8,
    ) -> Option<usize> {
        for number in cells {
            let cell = cell(table, size, number);
            let level = self.rank_of(cell[0]);
            // A type that is not on the way down neither matches nor parts a match from its parent.
            if level == 0 || level > *agreed + 1 {
                continue;
            }
            if self.admits(level, cell) {
                *agreed = level;
                if level == self.depth {
                    return Some(number);
                }
            } else {
                *agreed = level - 1;
            }
        }
        None
    }
}
