//! Tables: how sound ones are drawn, and what the drawing of positions and lists reads off them.

use crate::dice::Dice;
use crate::packed;
use crate::plan::{FieldPlan, Plan};
use std::ops::Range;

/// A catalogue and a table, with the bytes data is drawn from. Few different bytes make equal keys, matches
/// and refusals frequent.
#[derive(Clone)]
pub struct Base {
    pub plan: Plan,
    pub catalogue: Vec<u8>,
    pub table: Vec<u8>,
    pub alphabet: Vec<u8>,
}

/// How many segments a table should have about.
#[derive(Clone, Copy, PartialEq, Eq)]
pub enum Size {
    Small,
    Any,
    Huge,
}

impl Base {
    pub fn new(plan: Plan, table: Vec<u8>, alphabet: Vec<u8>) -> Base {
        Base {
            catalogue: plan.block(),
            plan,
            table,
            alphabet,
        }
    }

    /// The bench table.
    pub fn bench() -> Base {
        let cells: [&[u8]; 9] = [
            b"\x0107A", b"\x0213P", b"\x03P1", b"\x0214T", b"\x03T1", b"\x03P2", b"\x04n",
            b"\x0109B", b"\x0214P",
        ];
        let cells: Vec<Vec<u8>> = cells.iter().map(|cell| cell.to_vec()).collect();
        let plan = Plan::bench();
        let table = table_of(&plan, &cells, 12);
        Base::new(plan, table, b"0134P".to_vec())
    }

    pub fn draw(dice: &mut Dice, size: Size) -> Base {
        let plan = Plan::draw(dice);
        Base::over(dice, plan, size)
    }

    /// A table over a given catalogue.
    pub fn over(dice: &mut Dice, plan: Plan, size: Size) -> Base {
        let budget = match size {
            Size::Huge => 4096,
            Size::Small => dice.below(25),
            Size::Any => match dice.weighted(&[5, 55, 30, 10]) {
                0 => 0,
                1 => dice.between(1, 12),
                2 => dice.between(13, 40),
                _ => dice.between(41, 250),
            },
        };
        let alphabet = draw_alphabet(dice, size);
        let mut growth = Growth {
            plan: &plan,
            dice,
            alphabet: &alphabet,
            cells: Vec::new(),
            budget,
        };
        let roots = growth.dice.between(1, 1 + budget);
        growth.group(1, roots);
        let cells = growth.cells;
        let free = match dice.weighted(&[35, 30, 35]) {
            0 => 0,
            1 => dice.between(1, 3),
            _ => dice.between(4, 20),
        };
        let capacity = (cells.len() + free).min(4096);
        let table = table_of(&plan, &cells, capacity);
        Base::new(plan, table, alphabet)
    }

    pub fn count(&self) -> usize {
        usize::from(self.table[6]) << 8 | usize::from(self.table[7])
    }

    pub fn capacity(&self) -> usize {
        (self.table.len() - 8) / self.plan.cell_size()
    }

    pub fn cell(&self, number: usize) -> &[u8] {
        let size = self.plan.cell_size();
        &self.table[8 + number * size..][..size]
    }

    pub fn type_at(&self, number: usize) -> u8 {
        self.cell(number)[0]
    }

    /// The L data bytes of a cell.
    pub fn data_at(&self, number: usize) -> &[u8] {
        let length = self.plan.of(self.type_at(number)).length;
        &self.cell(number)[1..=usize::from(length)]
    }

    fn level_at(&self, number: usize) -> usize {
        self.plan.level(self.type_at(number))
    }

    /// The cell and its ancestors, lowest first.
    pub fn upwards(&self, number: usize) -> Vec<usize> {
        let mut above = vec![number];
        let mut level = self.level_at(number);
        for other in (0..number).rev() {
            if level == 1 {
                break;
            }
            if self.level_at(other) < level {
                level = self.level_at(other);
                above.push(other);
            }
        }
        above
    }

    /// The number of the first cell behind the run of a cell.
    pub fn run_end(&self, number: usize) -> usize {
        let level = self.level_at(number);
        (number + 1..self.count())
            .find(|&other| self.level_at(other) <= level)
            .unwrap_or(self.count())
    }

    pub fn draw_data(&self, dice: &mut Dice, length: usize) -> Vec<u8> {
        draw_bytes(dice, &self.alphabet, length)
    }

    /// Data for a segment of a type.
    pub fn draw_segment(&self, dice: &mut Dice, type_code: u8) -> Vec<u8> {
        draw_segment(dice, &self.plan, &self.alphabet, type_code)
    }

    /// A value for a field.
    pub fn draw_value(&self, dice: &mut Dice, field: &FieldPlan) -> Vec<u8> {
        match field.packed {
            true => packed::draw(dice, field.span().len(), is_wide(&self.alphabet)),
            false => self.draw_data(dice, field.span().len()),
        }
    }
}

/// A table block from cells without their zeros.
pub fn table_of(plan: &Plan, cells: &[Vec<u8>], capacity: usize) -> Vec<u8> {
    let size = plan.cell_size();
    let mut table = b"HDT\x00\x01".to_vec();
    table.push(size as u8);
    table.extend((cells.len() as u16).to_be_bytes());
    for cell in cells {
        let end = table.len() + size;
        table.extend(cell);
        table.resize(end, 0);
    }
    table.resize(8 + capacity * size, 0);
    table
}

fn draw_alphabet(dice: &mut Dice, size: Size) -> Vec<u8> {
    if size == Size::Huge || dice.percent(15) {
        return (0..=255).collect();
    }
    let telling = [0, 1, 2, b'A', 0x7F, 0x80, 0xFE, 0xFF];
    (0..dice.between(2, 5))
        .map(|_| *dice.pick(&telling))
        .collect()
}

/// Whether data has many different bytes.
fn is_wide(alphabet: &[u8]) -> bool {
    alphabet.len() > 16
}

fn draw_bytes(dice: &mut Dice, alphabet: &[u8], length: usize) -> Vec<u8> {
    (0..length).map(|_| *dice.pick(alphabet)).collect()
}

/// Data for a segment of a type, in most of its packed fields a number. The packed key comes last, so that it is one
/// whatever lies over it.
fn draw_segment(dice: &mut Dice, plan: &Plan, alphabet: &[u8], type_code: u8) -> Vec<u8> {
    let owner = plan.of(type_code);
    let mut data = draw_bytes(dice, alphabet, owner.length.into());
    let mut lay = |dice: &mut Dice, span: Range<usize>| {
        let number = packed::draw(dice, span.len(), is_wide(alphabet));
        data[span].copy_from_slice(&number);
    };
    for field in &plan.fields {
        if field.packed && field.type_code == type_code && dice.percent(80) {
            lay(dice, field.span());
        }
    }
    if owner.key_packed {
        lay(dice, owner.key());
    }
    data
}

/// Grows a forest, parent first, until the budget is spent.
struct Growth<'g> {
    plan: &'g Plan,
    dice: &'g mut Dice,
    alphabet: &'g [u8],
    cells: Vec<Vec<u8>>,
    budget: usize,
}

impl Growth<'_> {
    /// A group of at most that many twins, each with its groups of children.
    fn group(&mut self, type_code: u8, twins: usize) {
        let children = self.plan.children(type_code);
        for data in self.twins(type_code, twins) {
            if self.budget == 0 {
                return;
            }
            self.budget -= 1;
            let mut cell = vec![type_code];
            cell.extend(data);
            self.cells.push(cell);
            for &child in &children {
                let twins = self.dice.weighted(&[30, 38, 17, 10, 5]);
                self.group(child, twins);
            }
        }
    }

    /// The data of a row of twins, in the order of their keys.
    fn twins(&mut self, type_code: u8, count: usize) -> Vec<Vec<u8>> {
        let plan = *self.plan.of(type_code);
        let mut rows: Vec<Vec<u8>> = (0..count)
            .map(|_| draw_segment(self.dice, self.plan, self.alphabet, type_code))
            .collect();
        let order = |one: &[u8], other: &[u8]| {
            let value = plan.key_value();
            let (one, other) = (&one[plan.key()], &other[plan.key()]);
            value.value_of(one).cmp(&value.value_of(other))
        };
        if plan.kind != 0 {
            rows.sort_by(|one, other| order(one, other));
            if plan.kind == 1 {
                rows.dedup_by(|one, other| order(one, other).is_eq());
            }
        }
        rows
    }
}
