//! What was measured.

use crate::work::Operation;
use crate::worst::Row;

struct Figure<R> {
    row: R,
    size: usize,
    name: &'static str,
    nanoseconds: f64,
}

/// The figures of the rows of one kind.
pub struct Figures<R>(Vec<Figure<R>>);

impl<R: PartialEq> Figures<R> {
    pub fn new() -> Figures<R> {
        Figures(Vec::new())
    }

    pub fn add(&mut self, row: R, size: usize, name: &'static str, nanoseconds: f64) {
        self.0.push(Figure {
            row,
            size,
            name,
            nanoseconds,
        });
    }

    /// The nanoseconds of one, if it was measured.
    pub fn of(&self, row: R, size: usize, name: &str) -> Option<f64> {
        let is_it =
            |figure: &&Figure<R>| figure.row == row && figure.size == size && figure.name == name;
        self.0.iter().find(is_it).map(|figure| figure.nanoseconds)
    }
}

/// All the figures of a run.
pub struct Run {
    pub sample: Figures<Operation>,
    pub worst: Figures<Row>,
}
