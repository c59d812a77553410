//! Catalogues with lists of names: what a reader has given, or what no reader gives.

use super::Left;
use crate::dice::Dice;
use crate::plan::Plan;

#[derive(Clone, PartialEq, Eq)]
pub struct Pair {
    pub catalogue: Vec<u8>,
    pub names: Vec<u8>,
}

/// The pair at the front of a reader's buffers; an empty one where there is none.
pub fn cut(read: &Left) -> Pair {
    let [_, types, fields, ..] = read.result.to_le_bytes().map(usize::from);
    let [cat, names] = [8 + 8 * types + 4 * fields, 16 + 8 * types + 8 * fields];
    let front = |block: &[u8], long: usize| block.get(..long).unwrap_or_default().to_vec();
    Pair {
        catalogue: front(&read.blocks[0], cat),
        names: front(&read.blocks[1], names),
    }
}

/// A sound catalogue, whose fields stand in any order, and names for it.
pub fn draw(dice: &mut Dice) -> Pair {
    let mut plan = Plan::draw(dice);
    if dice.percent(50) {
        plan.fields.sort_by_key(|field| field.type_code);
    }
    let mut names = b"HDN\x00\x01".to_vec();
    let counts = [plan.types.len(), plan.fields.len()];
    names.extend([counts[0] as u8, counts[1] as u8, 0]);
    for number in 0..=counts.iter().sum() {
        names.extend(format!("N{number:<7}").into_bytes());
    }
    Pair {
        catalogue: plan.block(),
        names,
    }
}

/// A byte changed here or there, a name repeated, a byte too few or too many.
pub fn damage(dice: &mut Dice, pair: &mut Pair) {
    match dice.below(8) {
        0 => scratch(dice, &mut pair.catalogue),
        1 | 2 => scratch(dice, &mut pair.names),
        3 => repeat(dice, &mut pair.names),
        4 => pair
            .names
            .extend(&b"EXTRA   "[..dice.pick(&[1, 8]).to_owned()]),
        5 => drop(pair.names.pop()),
        6 => swap_fields(dice, pair),
        _ => spread_key(dice, &mut pair.catalogue),
    }
}

fn scratch(dice: &mut Dice, block: &mut [u8]) {
    if block.is_empty() {
        return;
    }
    let at = dice.below(block.len());
    block[at] = match dice.below(6) {
        0 => b' ',
        1 => b'A',
        2 => b'7',
        3 => block[at].wrapping_add(1),
        4 => 0,
        _ => dice.byte(),
    };
}

/// One name over another.
fn repeat(dice: &mut Dice, names: &mut [u8]) {
    let count = names.len().saturating_sub(8) / 8;
    let [from, to] = [dice.below(count), dice.below(count)].map(|at| 8 + 8 * at);
    if count > 0 {
        names.copy_within(from..from + 8, to);
    }
}

/// Two entries of fields, the names staying.
fn swap_fields(dice: &mut Dice, pair: &mut Pair) {
    let Some(&types) = pair.catalogue.get(5) else {
        return;
    };
    let begin = 8 + 8 * usize::from(types);
    let count = pair.catalogue.len().saturating_sub(begin) / 4;
    if count > 1 {
        let at = begin + 4 * dice.below(count - 1);
        pair.catalogue[at..at + 8].rotate_left(4);
    }
}

/// A key of another kind, or one byte shorter.
fn spread_key(dice: &mut Dice, block: &mut [u8]) {
    let Some(&types) = block.get(5) else { return };
    let entry = 8 + 8 * dice.below(usize::from(types));
    if entry + 8 > block.len() {
        return;
    }
    match dice.below(3) {
        0 => block[entry + 2] = 1 + block[entry + 2] % 2,
        1 => block[entry + 4] = block[entry + 4].saturating_sub(1),
        _ => block[entry + 2..entry + 5].copy_from_slice(&[1, 1, 1]),
    }
}
