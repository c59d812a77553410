//! How often each call answered each status, so that one sees that everything is judged.

use face::number;
use judge::{Status, Way};
use std::fmt;

/// What is counted besides the calls, in the order of the rows.
const OTHERS: [&str; 6] = ["catalogue", "table", "maker", "nested", "joined", "plain"];

/// A row for the numbers that are none, and one for each call.
const CALL_ROWS: usize = 1 + number::ALL.len();

const ROWS: usize = CALL_ROWS + OTHERS.len();

fn names() -> impl Iterator<Item = &'static str> {
    let calls = number::ALL.iter().map(|&(name, _)| name);
    std::iter::once("other").chain(calls).chain(OTHERS)
}

/// Where something is counted.
#[derive(Clone, Copy, PartialEq, Eq, Debug)]
pub enum Row {
    Call(u8),
    CatalogueCheck,
    TableCheck,
    Maker,
    Report(Way),
}

impl Row {
    fn index(self) -> usize {
        match self {
            Row::Call(number) => {
                let is_it = |&(_, each): &(_, u8)| each == number;
                number::ALL.iter().position(is_it).map_or(0, |row| 1 + row)
            }
            Row::CatalogueCheck => CALL_ROWS,
            Row::TableCheck => CALL_ROWS + 1,
            Row::Maker => CALL_ROWS + 2,
            Row::Report(Way::Nested) => CALL_ROWS + 3,
            Row::Report(Way::Joined) => CALL_ROWS + 4,
            Row::Report(Way::Plain) => CALL_ROWS + 5,
        }
    }
}

/// The column of a status: its place in the status table (R48).
fn column(status: Status) -> usize {
    let is_it = |each: &Status| *each == status;
    Status::ALL.iter().position(is_it).expect("all are there")
}

#[derive(Clone, Default)]
pub struct Tally {
    counts: [[u64; Status::ALL.len()]; ROWS],
    /// How many of the calls were put to the sound call as well.
    pub sound: u64,
}

impl Tally {
    pub fn count(&mut self, row: Row, status: u8) {
        let status = Status::of_number(status).expect("the judge answers with a known status");
        self.counts[row.index()][column(status)] += 1;
    }

    pub fn of(&self, row: Row, status: Status) -> u64 {
        self.counts[row.index()][column(status)]
    }

    /// How many calls were compared, the checked and the sound ones.
    pub fn calls(&self) -> u64 {
        let checked: u64 = self.counts[..CALL_ROWS].iter().flatten().sum();
        checked + self.sound
    }

    pub fn add(&mut self, other: &Tally) {
        for (row, more) in self.counts.iter_mut().zip(&other.counts) {
            for (count, more) in row.iter_mut().zip(more) {
                *count += more;
            }
        }
        self.sound += other.sound;
    }
}

impl fmt::Display for Tally {
    fn fmt(&self, out: &mut fmt::Formatter) -> fmt::Result {
        write!(out, "{:10}", "")?;
        for status in Status::ALL {
            write!(out, "{:>9}", status.letters())?;
        }
        writeln!(out)?;
        for (name, row) in names().zip(&self.counts) {
            write!(out, "{name:10}")?;
            for &count in row {
                match count {
                    0 => write!(out, "{:>9}", ".")?,
                    _ => write!(out, "{count:>9}")?,
                }
            }
            writeln!(out)?;
        }
        write!(
            out,
            "calls compared: {}, of them sound calls: {}",
            self.calls(),
            self.sound
        )
    }
}
