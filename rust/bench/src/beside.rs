//! Two archives beside each other: `bench beside ROW OLD.so .. -- NEW.so ..`, each side the same archive linked in several orders of its
//! functions. Where a function happens to lie moves a row by some hundredths, so each side is told as the median of its layouts.

mod layout;

use crate::asked;
use crate::calls;
use crate::markdown::{aligned, precise, rounded, thousands};
use crate::measure::{agreed, timed, Anybody};
use crate::sample::Sample;
use crate::shapes::{self, Shape};
use crate::work::{Contender, Done, Operation};
use crate::worst::Row;
use crate::SIZES;
use layout::{Layout, Turn};

pub const WORD: &str = "beside";

/// The word between the layouts of the two sides.
const BETWEEN: &str = "--";

const OLD: &str = "old";
const NEW: &str = "new";

/// A session under one layout.
struct InLayout<S> {
    layout: &'static Layout,
    session: S,
}

impl<W, S: Contender<W>> Contender<W> for InLayout<S> {
    fn name(&self) -> &'static str {
        self.layout.side
    }

    fn run(&mut self, work: &W) -> Option<Done> {
        self.layout.take_turn();
        self.session.run(work)
    }

    fn is_as_before(&self) -> bool {
        self.session.is_as_before()
    }
}

/// What is measured, and the rows so far.
struct Beside {
    /// Rows whose title has this in it.
    row: String,
    layouts: Vec<&'static Layout>,
    rows: Vec<Vec<String>>,
}

/// Measures the layouts that the words name, and tells each row.
pub fn run(words: &[String]) {
    let head = [
        "ns, medians of the layouts",
        "cells",
        OLD,
        NEW,
        "new / old",
        "at their best",
    ];
    let mut beside = Beside {
        row: words[0].clone(),
        layouts: layouts(&words[1..]),
        rows: vec![head.map(String::from).to_vec()],
    };
    for size in SIZES {
        beside.sample(size);
    }
    for size in shapes::SIZES {
        for shape in Shape::ALL {
            beside.worst(shape, size);
        }
    }
    print!("{}", aligned(&beside.rows));
}

impl Beside {
    fn sample(&mut self, size: usize) {
        let sample = Sample::new(size);
        let mut all = sessions(&self.layouts, || calls::Session::<Turn>::new(&sample));
        for operation in Operation::ALL {
            let parts = agreed(&mut all, &operation).count;
            self.add(operation.title(), size, parts, &mut all, &operation);
        }
    }

    /// The rows of a worst table; none where a side refuses it, as an older store does what it does not know yet.
    fn worst(&mut self, shape: Shape, size: usize) {
        let blocks = shape.blocks(size);
        let refuses = |layout: &&'static Layout| layout.refuses(&blocks.catalogue, &blocks.table);
        if self.layouts.iter().any(refuses) {
            return;
        }
        let mut all = sessions(&self.layouts, || asked::Session::<Turn>::new(&blocks));
        for row in Row::ALL.into_iter().filter(|row| row.shape() == shape) {
            let asked = row.asked(&blocks);
            let done = agreed(&mut all, &asked);
            assert_eq!(done, row.expected(&blocks), "{row:?}");
            let parts = if row.is_whole() { 1 } else { done.count };
            let title = format!("{}, {}", row.name(), row.counted());
            self.add(&title, size, parts, &mut all, &asked);
        }
    }

    fn add<W>(&mut self, title: &str, size: usize, parts: usize, all: &mut [Anybody<W>], work: &W) {
        if !title.contains(&self.row) {
            return;
        }
        let times = timed(all, work);
        let sorted = |side: &str| {
            let own = times.iter().filter(|(name, _)| *name == side);
            let mut own: Vec<f64> = own.map(|(_, round)| round / parts as f64).collect();
            own.sort_by(f64::total_cmp);
            own
        };
        let (old, new) = (sorted(OLD), sorted(NEW));
        let middle = old.len() / 2;
        self.rows.push(vec![
            title.to_string(),
            thousands(size),
            rounded(old[middle]),
            rounded(new[middle]),
            precise(new[middle] / old[middle]),
            precise(new[0] / old[0]),
        ]);
    }
}

/// The layouts of both sides, one of each in turn.
fn layouts(words: &[String]) -> Vec<&'static Layout> {
    let mut sides = words.split(|word| word == BETWEEN);
    let (old, new) = (sides.next().unwrap_or(&[]), sides.next().unwrap_or(&[]));
    assert!(
        !old.is_empty() && old.len() == new.len(),
        "as many layouts of one side as of the other"
    );
    let pairs = old.iter().zip(new);
    pairs
        .flat_map(|(old, new)| [Layout::load(OLD, old), Layout::load(NEW, new)])
        .collect()
}

fn sessions<'s, W, S: Contender<W> + 's>(
    layouts: &[&'static Layout],
    session: impl Fn() -> S,
) -> Vec<Anybody<'s, W>> {
    let under = |&layout: &&'static Layout| -> Anybody<'s, W> {
        Box::new(InLayout {
            layout,
            session: session(),
        })
    };
    layouts.iter().map(under).collect()
}
