//! The nine calls, over the tree.

use super::arguments::{complete, matches, read_list, Argument, Level};
use super::catalogue::{Catalogue, TypeCode};
use super::forest::{Forest, Path, Segment};
use super::position::{is_beneath, Place, Position};
use super::status::Status;

/// The calls, by number.
pub const GU: u8 = 1;
pub const GN: u8 = 2;
pub const GNP: u8 = 3;
pub const GHU: u8 = 4;
pub const GHN: u8 = 5;
pub const GHNP: u8 = 6;
pub const ISRT: u8 = 7;
pub const REPL: u8 = 8;
pub const DLET: u8 = 9;

/// What a get looks at.
#[derive(Clone, Copy, PartialEq, Eq, Debug)]
pub enum Scope {
    /// GU: the first match, along the position.
    Unique,
    /// GN: the first match after the place.
    Next,
    /// GNP: the same, beneath the parentage.
    NextWithinParent,
}

#[derive(Clone, Copy, PartialEq, Eq, Debug)]
pub enum Call {
    Get { scope: Scope, hold: bool },
    Insert,
    Replace,
    Delete,
}

impl Call {
    pub fn of_number(number: u8) -> Option<Call> {
        let get = |scope, hold| Some(Call::Get { scope, hold });
        match number {
            GU => get(Scope::Unique, false),
            GN => get(Scope::Next, false),
            GNP => get(Scope::NextWithinParent, false),
            GHU => get(Scope::Unique, true),
            GHN => get(Scope::Next, true),
            GHNP => get(Scope::NextWithinParent, true),
            ISRT => Some(Call::Insert),
            REPL => Some(Call::Replace),
            DLET => Some(Call::Delete),
            _ => None,
        }
    }
}

/// The segment got, inserted, replaced or deleted.
#[derive(Clone, Copy, PartialEq, Eq, Debug)]
pub struct Subject<'a> {
    pub type_code: TypeCode,
    pub level: usize,
    pub data: &'a [u8],
}

/// What a call answers when it is not refused.
#[derive(Debug)]
pub struct Answer<'a> {
    pub status: Status,
    /// Absent exactly for status 10 to 12.
    pub subject: Option<Subject<'a>>,
    pub removed: usize,
    pub position: Position,
}

/// Catalogue and table, read.
#[derive(Debug)]
pub struct Database<'a> {
    pub catalogue: Catalogue,
    pub forest: Forest<'a>,
}

impl<'a> Database<'a> {
    /// Reads both blocks, or says which of them is bad.
    pub fn read(catalogue: &[u8], table: &'a [u8]) -> Result<Database<'a>, Status> {
        let catalogue = Catalogue::read(catalogue).ok_or(Status::CX)?;
        let forest = Forest::read(&catalogue, table).ok_or(Status::TX)?;
        Ok(Database { catalogue, forest })
    }

    /// One call on sound blocks and a good position; refusals in the order of R61.
    pub fn call(
        &mut self,
        position: Position,
        number: u8,
        list: &[u8],
        area: &'a [u8],
    ) -> Result<Answer<'a>, Status> {
        let call = Call::of_number(number).ok_or(Status::AD)?;
        let list = read_list(&self.catalogue, list)?;
        self.judge_list(call, &list)?;
        if call != Call::Delete && area.len() < self.catalogue.longest() {
            return Err(Status::AB);
        }
        match call {
            Call::Get { scope, hold } => Ok(self.get(position, scope, hold, &list)),
            Call::Insert => self.insert(position, &list, area),
            Call::Replace => self.replace(position, area),
            Call::Delete => self.delete(position),
        }
    }

    /// What is wrong with a list that is sound in itself but not for this call.
    fn judge_list(&self, call: Call, list: &[Argument]) -> Result<(), Status> {
        match (call, list.last()) {
            (Call::Insert, None) => Err(Status::AH),
            (Call::Insert, Some(last)) if last.test.is_some() => Err(Status::AJ),
            (Call::Replace | Call::Delete, Some(_)) => Err(Status::AJ),
            _ => Ok(()),
        }
    }

    pub fn get(
        &self,
        position: Position,
        scope: Scope,
        hold: bool,
        list: &[Argument],
    ) -> Answer<'a> {
        let found = match (scope, &position.parentage) {
            (Scope::Unique, _) => self.first_match(&position.place, list),
            (Scope::Next, _) => self.next_match(&position.place, None, list),
            (Scope::NextWithinParent, None) => return nothing(Status::GP, position),
            (Scope::NextWithinParent, above) => {
                self.next_match(&position.place, above.as_ref(), list)
            }
        };
        let Some(path) = found else {
            let at_end = scope == Scope::Next && list.is_empty();
            return if at_end {
                self.ran_out()
            } else {
                nothing(Status::GE, position)
            };
        };
        let status = if scope != Scope::Unique && list.is_empty() {
            self.crossing(&position.place, &path)
        } else {
            Status::Blank
        };
        let parentage = if scope == Scope::NextWithinParent {
            position.parentage
        } else {
            Some(path.clone())
        };
        Answer {
            status,
            subject: Some(self.subject(&path)),
            removed: 0,
            position: Position {
                place: Place::On(path),
                parentage,
                hold,
            },
        }
    }

    /// GU's segment. The empty list is not completed: it matches the first segment of all.
    fn first_match(&self, place: &Place, list: &[Argument]) -> Option<Path> {
        match list.last() {
            None => self.forest.first(),
            Some(last) => self.along(place, &complete(&self.catalogue, list, last.type_code)),
        }
    }

    /// GN's and GNP's segment: the first match after the place and, if asked, beneath a parent. Nothing
    /// beneath the parent follows the first segment outside it, so the search ends there.
    fn next_match(&self, place: &Place, above: Option<&Path>, list: &[Argument]) -> Option<Path> {
        let mut candidate = match place {
            Place::On(path) => self.forest.next(path),
            Place::Before(path) => path.clone(),
        };
        while let Some(path) = candidate {
            if above.is_some_and(|above| !is_beneath(&path, above)) {
                return None;
            }
            if matches(list, &self.forest.branch(&path)) {
                return Some(path);
            }
            candidate = self.forest.next(&path);
        }
        None
    }

    /// The first match of a completed list along the position: only beneath what the position keeps.
    fn along(&self, place: &Place, levels: &[Level]) -> Option<Path> {
        let kept = self.kept(place, levels);
        let rest = &levels[kept.len()..];
        self.seek(kept, rest)
    }

    /// The part of the position that stays in force: the longest stretch of the branch that agrees with the
    /// completed list, cut behind its last implied level.
    fn kept(&self, place: &Place, levels: &[Level]) -> Path {
        let Place::On(path) = place else {
            return Path::new();
        };
        let stretch = self
            .forest
            .branch(path)
            .iter()
            .zip(levels)
            .take_while(|(segment, level)| level.admits(segment))
            .count();
        let kept = levels[..stretch]
            .iter()
            .rposition(|level| level.is_implied())
            .map_or(0, |last| last + 1);
        path[..kept].to_vec()
    }

    /// The first segment beneath `path` that the levels lead to; with no level left, `path` itself.
    fn seek(&self, path: Path, levels: &[Level]) -> Option<Path> {
        let Some((level, deeper)) = levels.split_first() else {
            return Some(path);
        };
        let row = self.forest.row(&path);
        (0..row.len())
            .filter(|&index| level.admits(&row[index]))
            .find_map(|index| {
                let mut below = path.clone();
                below.push(index);
                self.seek(below, deeper)
            })
    }

    /// GA, GK or blank, by what lies between the place before the call and the segment found.
    fn crossing(&self, place: &Place, found: &Path) -> Status {
        let Place::On(path) = place else {
            return Status::Blank;
        };
        let (from, to) = (self.forest.segment(path), self.forest.segment(found));
        if found.len() < path.len() {
            Status::GA
        } else if found.len() == path.len() && from.type_code != to.type_code {
            Status::GK
        } else {
            Status::Blank
        }
    }

    fn insert(
        &mut self,
        position: Position,
        list: &[Argument],
        area: &'a [u8],
    ) -> Result<Answer<'a>, Status> {
        let (last, above) = list.split_last().expect("an empty list was refused");
        let segment_type = self.catalogue.of(last.type_code);
        let parent = match segment_type.parent() {
            None => Some(Path::new()),
            Some(lowest) => self.along(&position.place, &complete(&self.catalogue, above, lowest)),
        };
        let Some(parent) = parent else {
            return Ok(nothing(Status::GE, position));
        };
        let segment = Segment::new(last.type_code, &area[..segment_type.length]);
        if segment.key(&self.catalogue).is_none() {
            return Err(Status::PD);
        }
        if self.forest.has_rival(&self.catalogue, &parent, &segment) {
            return Err(Status::II);
        }
        if self.forest.is_full() {
            return Err(Status::FX);
        }
        let path = self.forest.insert(&self.catalogue, &parent, segment);
        Ok(Answer {
            status: Status::Blank,
            subject: Some(self.subject(&path)),
            removed: 0,
            position: Position {
                parentage: position.parentage.filter(|above| is_beneath(&path, above)),
                place: Place::On(path),
                hold: false,
            },
        })
    }

    fn replace(&mut self, position: Position, area: &'a [u8]) -> Result<Answer<'a>, Status> {
        let path = position.held().ok_or(Status::DJ)?.clone();
        let segment = self.forest.segment(&path);
        let segment_type = self.catalogue.of(segment.type_code);
        let data = &area[..segment_type.length];
        let key = segment_type.key.clone();
        if segment.data[key.clone()] != data[key] {
            return Err(Status::DA);
        }
        self.forest.replace(&path, data);
        Ok(Answer {
            status: Status::Blank,
            subject: Some(self.subject(&path)),
            removed: 0,
            position: position.without_hold(),
        })
    }

    fn delete(&mut self, position: Position) -> Result<Answer<'a>, Status> {
        let path = position.held().ok_or(Status::DJ)?.clone();
        let subject = self.subject(&path);
        let removed = self.forest.remove(&path).size();
        Ok(Answer {
            status: Status::Blank,
            subject: Some(subject),
            removed,
            position: Position {
                place: Place::Before(self.forest.at_or_after(&path)),
                parentage: position.parentage.filter(|above| is_beneath(&path, above)),
                hold: false,
            },
        })
    }

    /// GB: the end of the data base, after which the next get-next begins at the first root (request K2).
    fn ran_out(&self) -> Answer<'a> {
        Answer {
            status: Status::GB,
            subject: None,
            removed: 0,
            position: Position::fresh(&self.forest),
        }
    }

    fn subject(&self, path: &Path) -> Subject<'a> {
        let segment = self.forest.segment(path);
        Subject {
            type_code: segment.type_code,
            level: path.len(),
            data: segment.data,
        }
    }
}

/// GE and GP: nothing came of the call, and only the hold is dropped.
fn nothing<'a>(status: Status, position: Position) -> Answer<'a> {
    Answer {
        status,
        subject: None,
        removed: 0,
        position: position.without_hold(),
    }
}
