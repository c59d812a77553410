//! The position: place, parentage and hold. Inside it is made of paths; cell numbers stand only in the block.

use super::forest::{Forest, Path};

/// The position as callers in other languages hold it.
pub type Block = [u8; 8];

/// The block of a fresh position: the gap before 0, no parentage, no hold.
pub const FRESH: Block = [0; 8];

#[derive(Clone, PartialEq, Eq, Debug)]
pub enum Place {
    /// On a segment.
    On(Path),
    /// In the gap before a segment, or behind the last one.
    Before(Option<Path>),
}

#[derive(Clone, PartialEq, Eq, Debug)]
pub struct Position {
    pub place: Place,
    pub parentage: Option<Path>,
    pub hold: bool,
}

impl Position {
    /// Where a session begins.
    pub fn fresh(forest: &Forest) -> Position {
        Position {
            place: Place::Before(forest.first()),
            parentage: None,
            hold: false,
        }
    }

    /// Reads a block; `None` for a bad position (R18 to R23).
    pub fn read(forest: &Forest, block: &[u8]) -> Option<Position> {
        let &[kind, place_high, place_low, parented, parent_high, parent_low, hold, zero] = block
        else {
            return None;
        };
        let place = read_place(forest, kind, number(place_high, place_low))?;
        let parentage = match (parented, number(parent_high, parent_low)) {
            (0, 0) => None,
            (1, cell) => Some(forest.path_of(cell)?),
            _ => return None,
        };
        let good = hold <= 1
            && zero == 0
            && (hold == 0 || matches!(place, Place::On(_)))
            && parentage
                .as_ref()
                .is_none_or(|above| may_parent(forest, above, &place));
        good.then_some(Position {
            place,
            parentage,
            hold: hold == 1,
        })
    }

    /// The block, with paths turned into cell numbers.
    pub fn write(&self, forest: &Forest) -> Block {
        let (kind, cell) = match &self.place {
            Place::On(path) => (1, forest.cell_of(path)),
            Place::Before(Some(path)) => (0, forest.cell_of(path)),
            Place::Before(None) => (0, forest.count()),
        };
        let [place_high, place_low] = (cell as u16).to_be_bytes();
        let (parented, above) = match &self.parentage {
            Some(path) => (1, forest.cell_of(path)),
            None => (0, 0),
        };
        let [parent_high, parent_low] = (above as u16).to_be_bytes();
        let hold = u8::from(self.hold);
        [
            kind,
            place_high,
            place_low,
            parented,
            parent_high,
            parent_low,
            hold,
            0,
        ]
    }

    /// The same, with the hold dropped.
    pub fn without_hold(self) -> Position {
        Position {
            hold: false,
            ..self
        }
    }

    /// The segment held.
    pub fn held(&self) -> Option<&Path> {
        match &self.place {
            Place::On(path) if self.hold => Some(path),
            _ => None,
        }
    }
}

/// Whether `lower` lies strictly beneath `upper`.
pub fn is_beneath(lower: &[usize], upper: &[usize]) -> bool {
    lower.len() > upper.len() && lower.starts_with(upper)
}

fn read_place(forest: &Forest, kind: u8, cell: usize) -> Option<Place> {
    match kind {
        0 if cell == forest.count() => Some(Place::Before(None)),
        0 => Some(Place::Before(Some(forest.path_of(cell)?))),
        1 => Some(Place::On(forest.path_of(cell)?)),
        _ => None,
    }
}

/// Whether a parentage goes with a place. On a segment it is that one or an ancestor; in a gap it is one whose
/// run the gap lies in or ends.
fn may_parent(forest: &Forest, above: &Path, place: &Place) -> bool {
    match place {
        Place::On(path) => path.starts_with(above),
        Place::Before(path) => {
            path.as_ref().is_some_and(|path| is_beneath(path, above))
                || *path == forest.after_run(above)
        }
    }
}

fn number(high: u8, low: u8) -> usize {
    usize::from(u16::from_be_bytes([high, low]))
}
