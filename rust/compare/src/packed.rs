//! Packed numbers: how they are drawn, how one is put in other bytes, and how it is spoilt.

use crate::dice::Dice;
use judge::values::{Value, ValueType};

/// The most bytes that a packed key or field may have.
pub const LONGEST: usize = 16;

const PLUS: [u8; 4] = [0xA, 0xC, 0xE, 0xF];
const MINUS: [u8; 2] = [0xB, 0xD];
const SIGNS: [u8; 6] = [0xA, 0xB, 0xC, 0xD, 0xE, 0xF];

/// A number in that many bytes. Few different ones make equals frequent, both zeros among them; a wide draw has
/// many.
pub fn draw(dice: &mut Dice, length: usize, wide: bool) -> Vec<u8> {
    let digits = 2 * length - 1;
    let lone = match dice.below(3) {
        0 => dice.below(digits),
        _ => digits - 1,
    };
    let way = match wide {
        true => 4,
        false => dice.weighted(&[12, 50, 18, 8, 12]),
    };
    let mut halves: Vec<u8> = (0..digits)
        .map(|place| match way {
            0 => 0,
            1 if place == lone => dice.between(1, 3) as u8,
            1 => 0,
            2 => *dice.pick(&[0, 1, 9]),
            3 if place == lone => dice.between(8, 9) as u8,
            3 => 9,
            _ => dice.below(10) as u8,
        })
        .collect();
    halves.push(*dice.pick(&SIGNS));
    halves.chunks(2).map(|two| two[0] << 4 | two[1]).collect()
}

pub fn is_number(bytes: &[u8]) -> bool {
    ValueType::Packed.value_of(bytes).is_some()
}

/// Another sign that says the same: of a zero any, else one of plus or of minus. What is no number stays.
pub fn disguise(dice: &mut Dice, bytes: &mut [u8]) {
    let Some(value) = ValueType::Packed.value_of(bytes) else {
        return;
    };
    let is_zero = value == Value::Number(0);
    let last = bytes.last_mut().expect("a number has a sign");
    let same: &[u8] = match *last & 15 {
        _ if is_zero => &SIGNS,
        sign if MINUS.contains(&sign) => &MINUS,
        _ => &PLUS,
    };
    *last = *last & 0xF0 | *dice.pick(same);
}

/// No number any more: a digit that is none, or a sign that is none.
pub fn spoil(dice: &mut Dice, bytes: &mut [u8]) {
    let Some((last, _)) = bytes.split_last_mut() else {
        return;
    };
    if dice.percent(40) {
        *last = *last & 0xF0 | dice.below(10) as u8;
        return;
    }
    let half = dice.below(2 * bytes.len() - 1);
    let none = dice.between(10, 15) as u8;
    let byte = &mut bytes[half / 2];
    *byte = match half % 2 {
        0 => *byte & 0x0F | none << 4,
        _ => *byte & 0xF0 | none,
    };
}
