//! Damage to blocks: most of it makes them bad, some of it leaves them sound.

use crate::dice::Dice;
use crate::packed;
use crate::table::Base;

/// A catalogue with something done to it.
pub fn catalogue(dice: &mut Dice, base: &Base) -> Vec<u8> {
    let mut block = base.catalogue.clone();
    match dice.below(12) {
        0 => flip(dice, &mut block),
        1 => cut(dice, &mut block),
        2 => extend(dice, &mut block),
        3 => {
            let byte = dice.below(8);
            block[byte] = block[byte].wrapping_add(*dice.pick(&[1, 255]));
        }
        8 => {
            // A key so long that its end, kept in one byte, would come round.
            let entry = 8 + 8 * dice.below(base.plan.types.len());
            block[entry + 2] = dice.between(1, 2) as u8;
            block[entry + 3] = dice.between(1, 4) as u8;
            block[entry + 4] = *dice.pick(&[254, 255]);
        }
        4 => {
            // A byte of an entry set to a telling value.
            let byte = dice.between(8, block.len() - 1);
            block[byte] = *dice.pick(&[0, 1, 2, 3, 14, 15, 120, 121, 255]);
        }
        9 => {
            // The value type of a key, or a zero before it.
            let entry = 8 + 8 * dice.below(base.plan.types.len());
            let byte = *dice.pick(&[5, 6, 7, 7, 7]);
            block[entry + byte] = *dice.pick(&[0, 1, 1, 2, 255]);
        }
        10 if !base.plan.fields.is_empty() => {
            let fields = 8 + 8 * base.plan.types.len();
            let entry = fields + 4 * dice.below(base.plan.fields.len());
            block[entry + 3] = *dice.pick(&[0, 1, 1, 2, 255]);
        }
        11 => {
            // A packed key of about the longest length.
            let entry = 8 + 8 * dice.below(base.plan.types.len());
            let length = dice.between(15, 17) as u8;
            block[entry + 1] = 20;
            block[entry + 2..entry + 5].copy_from_slice(&[1, 1, length]);
            block[entry + 7] = 1;
        }
        5 => swap_rows(dice, &mut block[8..8 + 8 * base.plan.types.len()], 8),
        6 if !base.plan.fields.is_empty() => {
            let fields = 8 + 8 * base.plan.types.len();
            let byte = dice.between(fields, block.len() - 1);
            block[byte] = dice.below(6) as u8;
        }
        _ => {
            let byte = dice.between(8, block.len() - 1);
            block[byte] = block[byte].wrapping_add(*dice.pick(&[1, 255]));
        }
    }
    block
}

/// A table with something done to it.
pub fn table(dice: &mut Dice, base: &Base) -> Vec<u8> {
    let mut block = base.table.clone();
    let size = base.plan.cell_size();
    let (count, capacity) = (base.count(), base.capacity());
    match dice.below(16) {
        0 => flip(dice, &mut block),
        1 => cut(dice, &mut block),
        2 => extend(dice, &mut block),
        3 => {
            let byte = dice.below(8);
            block[byte] = block[byte].wrapping_add(*dice.pick(&[1, 255]));
        }
        4 => swap_rows(dice, &mut block[8..8 + count * size], size),
        5 if count > 1 => {
            // Two neighbours change places.
            let cell = dice.below(count - 1);
            let (front, behind) = block[8 + cell * size..].split_at_mut(size);
            front.swap_with_slice(&mut behind[..size]);
        }
        6 if count > 1 => {
            // One cell copied over another.
            let from = 8 + dice.below(count) * size;
            let to = 8 + dice.below(count) * size;
            block.copy_within(from..from + size, to);
        }
        7 if count > 0 => {
            let cell = 8 + dice.below(count) * size;
            block[cell..cell + size].fill(0);
        }
        8 if count > 0 => {
            let cell = 8 + dice.below(count) * size;
            block[cell] = dice.below(base.plan.types.len() + 2) as u8;
        }
        9 if count > 0 => {
            // A byte behind the data, where the type leaves one.
            let cell = dice.below(count);
            let used = 1 + base.data_at(cell).len();
            if used < size {
                block[8 + cell * size + dice.between(used, size - 1)] = 1;
            }
        }
        10 if count < capacity => {
            let byte = dice.between(8 + count * size, block.len() - 1);
            block[byte] = 1;
        }
        13..=15 if has_packed_key(base) => retouch_cell(dice, base, &mut block),
        11 => {
            // Whole cells more or less.
            let cells = dice.between(1, 2) * size;
            if dice.percent(50) {
                block.resize(block.len() + cells, 0);
            } else {
                block.truncate(block.len().saturating_sub(cells));
            }
        }
        _ => {
            // A data byte changed, which may upset the order of keys.
            if count > 0 {
                let cell = dice.below(count);
                let byte = dice.below(base.data_at(cell).len());
                block[8 + cell * size + 1 + byte] = *dice.pick(&base.alphabet);
            }
        }
    }
    block
}

fn packed_cells(base: &Base) -> Vec<usize> {
    let is_packed = |&cell: &usize| base.plan.of(base.type_at(cell)).key_packed;
    (0..base.count()).filter(is_packed).collect()
}

fn has_packed_key(base: &Base) -> bool {
    !packed_cells(base).is_empty()
}

/// A packed key put in other bytes, spoilt, or made one of another cell's value.
fn retouch_cell(dice: &mut Dice, base: &Base, block: &mut [u8]) {
    let cells = packed_cells(base);
    let cell = *dice.pick(&cells);
    let type_code = base.type_at(cell);
    let span = base.plan.of(type_code).key();
    let other = *dice.pick(&cells);
    let start = 8 + cell * base.plan.cell_size() + 1;
    let key = &mut block[start..][span.clone()];
    match dice.below(4) {
        0 => packed::disguise(dice, key),
        1 => packed::spoil(dice, key),
        _ if base.type_at(other) == type_code => {
            key.copy_from_slice(&base.data_at(other)[span]);
            packed::disguise(dice, key);
        }
        _ => key.copy_from_slice(&packed::draw(dice, span.len(), false)),
    }
}

fn flip(dice: &mut Dice, block: &mut [u8]) {
    let byte = dice.below(block.len());
    block[byte] ^= 1 << dice.below(8);
}

fn cut(dice: &mut Dice, block: &mut Vec<u8>) {
    let length = match dice.below(3) {
        0 => block.len() - 1,
        1 => dice.below(9),
        _ => dice.below(block.len()),
    };
    block.truncate(length);
}

fn extend(dice: &mut Dice, block: &mut Vec<u8>) {
    for _ in 0..dice.between(1, 8) {
        block.push(*dice.pick(&[0, 0, 0, 1]));
    }
}

fn swap_rows(dice: &mut Dice, rows: &mut [u8], size: usize) {
    let count = rows.len() / size;
    let (one, other) = (dice.below(count), dice.below(count));
    if one < other {
        let (front, behind) = rows.split_at_mut(other * size);
        front[one * size..][..size].swap_with_slice(&mut behind[..size]);
    }
}
