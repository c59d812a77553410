//! What is measured, and who does it.

/// One row of the benchmark.
#[derive(Clone, Copy, PartialEq, Eq, Debug)]
pub enum Operation {
    /// Every segment in hierarchic order, its data read.
    Listing,
    /// The tries with verdict P of the units in state A, unit by unit.
    Nested,
    /// The same in one go.
    Joined,
    /// The same by testing every cell.
    Plain,
    /// A step by the keys of its unit and its own.
    Unique,
    /// A try put under the first step and taken away again, the hold given.
    InsertDelete,
    /// The same with a get-hold by key between, as a caller does who only knows the key.
    InsertGetDelete,
    /// Get-next with every check before it.
    Checked,
    /// The listing by sixteen positions in turns, so that no step reads the block that the step before wrote.
    InTurns,
}

impl Operation {
    pub const ALL: [Operation; 9] = [
        Operation::Listing,
        Operation::Nested,
        Operation::Joined,
        Operation::Plain,
        Operation::Unique,
        Operation::InsertDelete,
        Operation::InsertGetDelete,
        Operation::Checked,
        Operation::InTurns,
    ];

    /// Its title, with what is counted.
    pub fn title(self) -> &'static str {
        match self {
            Operation::Listing => "listing, per segment",
            Operation::Nested => "nested report, per hit",
            Operation::Joined => "joined report, per hit",
            Operation::Plain => "plain report, per hit",
            Operation::Unique => "GU by unit and step key",
            Operation::InsertDelete => "ISRT + DLET early in the table",
            Operation::InsertGetDelete => "ISRT + GHU + DLET, by key",
            Operation::Checked => "checked GN",
            Operation::InTurns => "GN step, 16 positions in turns",
        }
    }
}

/// What a round of an operation came to. Whoever offers an operation must come to the same.
#[derive(Clone, Copy, PartialEq, Eq, Debug)]
pub struct Done {
    /// How many segments, hits or calls it was.
    pub count: usize,
    /// The sum of the numbers that the segments carry.
    pub sum: u64,
}

/// Somebody who does the work on one table. What is asked there is an operation, or something else.
pub trait Contender<W> {
    fn name(&self) -> &'static str;

    /// One round, or nothing where the work is not offered. What it changes it changes back.
    fn run(&mut self, work: &W) -> Option<Done>;

    /// Whether all that was done has been undone.
    fn is_as_before(&self) -> bool {
        true
    }
}

/// How many get-next calls a round of checked calls has.
pub const CHECKED_CALLS: usize = 16;

/// How many positions take turns.
pub const TURNS: usize = 16;

/// The numbers of cells in a report's out or in a position, two bytes each.
pub fn cell_numbers(bytes: &[u8]) -> impl Iterator<Item = u64> + '_ {
    let pairs = bytes.chunks_exact(2);
    pairs.map(|cell| u64::from(cell[0]) << 8 | u64::from(cell[1]))
}
