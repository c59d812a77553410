//! Three ways to report the segments beneath one list that match another; they must agree.

use super::arguments::{matches, read_list, read_list_beneath, Argument};
use super::calls::{Database, Scope};
use super::catalogue::Catalogue;
use super::forest::Segment;
use super::position::{Place, Position};
use super::status::Status;

/// How a report goes about it.
#[derive(Clone, Copy, PartialEq, Eq, Debug)]
pub enum Way {
    /// GN with list 1, and for each segment found GNP with list 2 to its end.
    Nested,
    /// GN with both lists joined.
    Joined,
    /// Every segment in hierarchic order, tested against both lists joined.
    Plain,
}

impl Way {
    pub const ALL: [Way; 3] = [Way::Nested, Way::Joined, Way::Plain];
}

/// The cell numbers of the hits, in cell order, or the refusal.
pub fn hits(
    way: Way,
    catalogue: &[u8],
    table: &[u8],
    list1: &[u8],
    list2: &[u8],
) -> Result<Vec<usize>, Status> {
    let database = Database::read(catalogue, table)?;
    let mut arguments = read_list(&database.catalogue, list1)?;
    let outer = arguments.len();
    arguments.extend(read_lower(&database.catalogue, &arguments, list2)?);
    let (upper, lower) = arguments.split_at(outer);
    Ok(match way {
        Way::Nested => nested(&database, upper, lower),
        Way::Joined => joined_hits(&database, &arguments),
        Way::Plain => plain(&database, &arguments),
    })
}

/// List 2, read on behind list 1: neither may be empty, and its first type lies beneath list 1's last.
fn read_lower<'a>(
    catalogue: &Catalogue,
    upper: &[Argument],
    list2: &'a [u8],
) -> Result<Vec<Argument<'a>>, Status> {
    let Some(last) = upper.last() else {
        return Err(Status::AC);
    };
    if list2.is_empty() {
        return Err(Status::AC);
    }
    read_list_beneath(catalogue, Some(last.type_code), list2)
}

fn nested(database: &Database, upper: &[Argument], lower: &[Argument]) -> Vec<usize> {
    let mut hits = Vec::new();
    let mut position = Position::fresh(&database.forest);
    loop {
        let outer = database.get(position, Scope::Next, false, upper);
        if outer.subject.is_none() {
            return hits;
        }
        position = gather(
            database,
            outer.position,
            Scope::NextWithinParent,
            lower,
            &mut hits,
        );
    }
}

fn joined_hits(database: &Database, list: &[Argument]) -> Vec<usize> {
    let mut hits = Vec::new();
    let start = Position::fresh(&database.forest);
    gather(database, start, Scope::Next, list, &mut hits);
    hits
}

/// Repeats a get until it finds nothing, and hands the position back.
fn gather(
    database: &Database,
    start: Position,
    scope: Scope,
    list: &[Argument],
    hits: &mut Vec<usize>,
) -> Position {
    let mut position = start;
    loop {
        let answer = database.get(position, scope, false, list);
        position = answer.position;
        match (&answer.subject, &position.place) {
            (Some(_), Place::On(path)) => hits.push(database.forest.cell_of(path)),
            _ => return position,
        }
    }
}

fn plain(database: &Database, list: &[Argument]) -> Vec<usize> {
    let mut reading = Reading {
        list,
        cell: 0,
        hits: Vec::new(),
    };
    let mut branch = Vec::new();
    for root in database.forest.row(&[]) {
        reading.visit(root, &mut branch);
    }
    reading.hits
}

/// A walk over the tree that counts cells as it goes.
struct Reading<'l> {
    list: &'l [Argument<'l>],
    cell: usize,
    hits: Vec<usize>,
}

impl Reading<'_> {
    fn visit<'t, 'a>(&mut self, segment: &'t Segment<'a>, branch: &mut Vec<&'t Segment<'a>>) {
        branch.push(segment);
        if matches(self.list, branch) {
            self.hits.push(self.cell);
        }
        self.cell += 1;
        for child in &segment.children {
            self.visit(child, branch);
        }
        branch.pop();
    }
}
