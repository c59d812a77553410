//! What the store is to reach, and what it has.

use crate::contenders::{BY_HAND, CRATE, FLOOR, LMDB, LMDB_COPIED, SQLITE, STORE};
use crate::figures::Run;
use crate::markdown::{aligned, precise};
use crate::shapes;
use crate::work::Operation::{
    self, Checked, InTurns, InsertDelete, Joined, Listing, Nested, Plain, Unique,
};
use crate::worst::Row;
use crate::SIZES;
use Measure::{Crate, Fastest, Ratio, Time};

/// What is held against the target.
enum Measure {
    /// An operation of the store at a size, in parts of what another operation costs somebody.
    Ratio(Operation, usize, Operation, &'static str),
    /// The cheapest of the reports, in parts of what an operation costs somebody.
    Fastest(Operation, &'static str),
    /// An operation of the crate for Rust programs, in parts of what it costs through the C face.
    Crate(Operation),
    /// Nanoseconds of the store on the largest of the worst tables.
    Time(Row),
}

const MEDIUM: usize = SIZES[1];
const LARGE: usize = SIZES[2];
const LARGEST: usize = shapes::SIZES[2];

const REPORTS: [Operation; 3] = [Nested, Joined, Plain];

impl Measure {
    fn of(&self, run: &Run) -> Option<f64> {
        match *self {
            Ratio(own, size, other, peer) => {
                let peer = run.sample.of(other, size, peer)?;
                Some(run.sample.of(own, size, STORE)? / peer)
            }
            Fastest(other, peer) => {
                let ratios = REPORTS.map(|own| Ratio(own, LARGE, other, peer).of(run));
                ratios.into_iter().flatten().reduce(f64::min)
            }
            Crate(own) => {
                let store = run.sample.of(own, LARGE, STORE)?;
                Some(run.sample.of(own, LARGE, CRATE)? / store)
            }
            Time(row) => run.worst.of(row, LARGEST, STORE),
        }
    }

    /// A ratio, or microseconds, precise enough to be held against what is asked.
    fn told(&self, number: f64) -> String {
        match self {
            Time(_) => format!("{} µs", precise(number / 1000.0)),
            _ => precise(number),
        }
    }

    /// The same of what is asked, which has few digits.
    fn asked(&self, most: f64) -> String {
        match self {
            Time(_) => format!("{} µs", most / 1000.0),
            _ => most.to_string(),
        }
    }
}

/// What it says, what is measured, and what that must not exceed.
struct Target(&'static str, Measure, f64);

#[rustfmt::skip]
const TARGETS: [Target; 15] = [
    Target("GN step through umbristal_call_sound / LMDB's cursor", Ratio(Listing, LARGE, Listing, LMDB), 1.1),
    Target("fastest of the three reports / SQLite's joined select", Fastest(Joined, SQLITE), 0.15),
    Target("nested report / SQLite's joined select", Ratio(Nested, LARGE, Joined, SQLITE), 0.25),
    Target("joined report / SQLite's joined select", Ratio(Joined, LARGE, Joined, SQLITE), 0.25),
    Target("ISRT + DLET early in the table / memmove of the same bytes", Ratio(InsertDelete, LARGE, InsertDelete, FLOOR), 1.2),
    Target("the same with 512 segments", Ratio(InsertDelete, MEDIUM, InsertDelete, FLOOR), 2.3),
    Target("GN with [child], one root with 4,095 children, a step", Time(Row::ChildrenNext), 100.0),
    Target("GNP with [child], the same", Time(Row::ChildrenWithin), 100.0),
    Target("nested report, 2,047 parents under one root", Time(Row::ParentsNested), 200_000.0),
    Target("plain report, one root with 4,095 children", Time(Row::ChildrenPlain), 100_000.0),
    Target("plain report, level 15", Time(Row::PathsPlain), 100_000.0),
    Target("GU of the last cell, 15 arguments", Time(Row::PathsUnique), 40_000.0),
    Target("checked call / Rust by hand", Ratio(Checked, LARGE, Checked, BY_HAND), 1.2),
    Target("GN step, Rust crate / C face", Crate(Listing), 1.2),
    Target("GU by key, Rust crate / C face", Crate(Unique), 1.2),
];

/// The targets, each met or not.
pub fn targets(run: &Run) -> String {
    let head = ["target", "at most", "measured", "verdict"];
    let mut rows = vec![head.map(String::from).to_vec()];
    for Target(says, measure, most) in &TARGETS {
        let measured = measure.of(run);
        let verdict = match measured {
            Some(number) if number <= *most => "met",
            Some(_) => "not met",
            None => "not measured",
        };
        rows.push(vec![
            says.to_string(),
            measure.asked(*most),
            measured.map_or(String::new(), |number| measure.told(number)),
            verdict.to_string(),
        ]);
    }
    aligned(&rows)
}

/// Ratios that are told and not bound.
#[rustfmt::skip]
const TOLD: [(&str, Measure); 3] = [
    ("GN step / LMDB's cursor, the data copied", Ratio(Listing, LARGE, Listing, LMDB_COPIED)),
    ("GN step / Rust by hand", Ratio(Listing, LARGE, Listing, BY_HAND)),
    ("GN step / GN step, 16 positions in turns", Ratio(Listing, LARGE, InTurns, STORE)),
];

/// What is told without a target, a line each.
pub fn without_target(run: &Run) -> String {
    let told = TOLD.iter().map(|(says, measure)| {
        let ratio = measure.of(run);
        let ratio = ratio.map_or("not measured".to_string(), precise);
        format!("- {says}: {ratio}\n")
    });
    told.collect()
}
