//! Positions, lists, areas and call numbers, good and bad.

use crate::dice::Dice;
use crate::packed;
use crate::plan::Plan;
use crate::table::Base;
use face::number::{DLET, GU, ISRT, REPL};

/// A call number: one of the nine, sometimes one that is none.
pub fn number(dice: &mut Dice) -> u8 {
    match dice.below(25) {
        0 => *dice.pick(&[0, 10, 11, 12, 255]),
        _ => between(dice, GU, DLET),
    }
}

/// One of the calls from this to that, both of them too.
pub fn between(dice: &mut Dice, first: u8, last: u8) -> u8 {
    dice.between(first.into(), last.into()) as u8
}

/// A position block, from its parts.
pub fn block(kind: u8, cell: usize, parentage: Option<usize>, hold: bool) -> Vec<u8> {
    let mut bytes = vec![kind];
    bytes.extend((cell as u16).to_be_bytes());
    bytes.push(u8::from(parentage.is_some()));
    bytes.extend((parentage.unwrap_or(0) as u16).to_be_bytes());
    bytes.extend([u8::from(hold), 0]);
    bytes
}

/// A position that is good for the table.
pub fn good_position(dice: &mut Dice, base: &Base) -> Vec<u8> {
    let count = base.count();
    if count > 0 && dice.percent(70) {
        let cell = dice.below(count);
        let parentage = match dice.below(3) {
            0 => None,
            1 => Some(cell),
            _ => Some(*dice.pick(&base.upwards(cell))),
        };
        return block(1, cell, parentage, dice.percent(50));
    }
    if count == 0 || dice.percent(15) {
        return block(0, dice.below(2) * count, None, false);
    }
    let parent = dice.below(count);
    let gap = match dice.below(3) {
        0 => base.run_end(parent),
        _ => dice.between(parent + 1, base.run_end(parent)),
    };
    let parentage = dice.percent(75).then_some(parent);
    block(0, gap, parentage, false)
}

/// A position that is most likely bad: of another kind, beyond the table, with a wrong parentage, with a hold in
/// a gap, or not canonical.
pub fn bad_position(dice: &mut Dice, base: &Base) -> Vec<u8> {
    let count = base.count();
    let mut position = good_position(dice, base);
    match dice.below(12) {
        0 => {
            let byte = *dice.pick(&[0, 3, 6, 7]);
            position[byte] = *dice.pick(&[2, 1, 255]);
        }
        1 => position = block(1, count + dice.below(2), None, dice.percent(50)),
        2 => position = block(0, count + dice.between(1, 2), None, false),
        3 => position = block(0, dice.below(count + 1), None, true),
        4 => {
            let cell = dice.below(count + 1);
            position = block(1, cell, Some(dice.below(count + 2)), false);
        }
        5 => {
            let cell = dice.below(count + 1);
            position = block(0, cell, Some(dice.below(count + 2)), false);
        }
        6 if count > 0 => {
            let parent = dice.below(count);
            let gap = *dice.pick(&[base.run_end(parent) + 1, parent, parent + 1]);
            position = block(0, gap, Some(parent), false);
        }
        7 => {
            // No parentage, but a cell number where it would stand.
            position[3] = 0;
            position[dice.between(4, 5)] = 1;
        }
        8 => position.truncate(dice.below(8)),
        9 => position.push(*dice.pick(&[0, 1])),
        10 => {
            let byte = dice.below(8);
            position[byte] ^= 1 << dice.below(8);
        }
        _ => position = dice.bytes(8),
    }
    position
}

/// Any position: mostly good, and often fresh.
pub fn position(dice: &mut Dice, base: &Base) -> Vec<u8> {
    match dice.below(12) {
        0 => block(0, 0, None, false),
        1 | 2 => bad_position(dice, base),
        _ => good_position(dice, base),
    }
}

/// One argument, before it becomes bytes.
#[derive(Clone)]
pub struct Word {
    pub type_code: u8,
    pub operator: u8,
    pub field: u8,
    pub value: Vec<u8>,
}

impl Word {
    fn bytes(&self) -> Vec<u8> {
        let mut bytes = vec![self.type_code, self.operator];
        if self.operator != 0 {
            bytes.push(self.field);
            bytes.extend(&self.value);
        }
        bytes
    }
}

pub fn list_of(words: &[Word]) -> Vec<u8> {
    words.iter().flat_map(Word::bytes).collect()
}

/// A sound list that is not empty, often one that some segment matches: its values are taken from the branch of
/// a cell. Levels above the last are left out at random, and so implied.
pub fn words(dice: &mut Dice, base: &Base) -> Vec<Word> {
    let count = base.count();
    let guide = (count > 0 && dice.percent(75)).then(|| dice.below(count));
    let last = match guide {
        Some(cell) => base.type_at(cell),
        None => dice.between(1, base.plan.types.len()) as u8,
    };
    let branch = guide.map_or(Vec::new(), |cell| base.upwards(cell));
    let lineage = base.plan.lineage(last);
    let named = *dice.pick(&[15, 50, 85]);
    let mut words = Vec::new();
    for &type_code in &lineage {
        if type_code == last || dice.percent(named) {
            let model = branch
                .iter()
                .find(|&&cell| base.type_at(cell) == type_code)
                .map(|&cell| base.data_at(cell));
            words.push(word(dice, base, type_code, model));
        }
    }
    words
}

/// An argument for a type, by preference one that the given data satisfies.
fn word(dice: &mut Dice, base: &Base, type_code: u8, data: Option<&[u8]>) -> Word {
    let fields = base.plan.fields_of(type_code);
    if fields.is_empty() || dice.percent(35) {
        return Word {
            type_code,
            operator: 0,
            field: 0,
            value: Vec::new(),
        };
    }
    let number = *dice.pick(&fields);
    let field = base.plan.field(number);
    let found = data
        .map(|data| &data[field.span()])
        .filter(|found| !field.packed || packed::is_number(found));
    let (operator, value) = match found {
        Some(found) if dice.percent(75) => {
            let operator = *dice.pick(&[1, 1, 1, 4, 6, 2, 3, 5]);
            let mut value = found.to_vec();
            if field.packed {
                packed::disguise(dice, &mut value);
            }
            (operator, value)
        }
        _ => (dice.between(1, 6) as u8, base.draw_value(dice, field)),
    };
    Word {
        type_code,
        operator,
        field: number,
        value,
    }
}

/// A sound list for a call: empty at times, for ISRT with its last argument unqualified, for REPL and DLET
/// mostly empty.
pub fn sound_list(dice: &mut Dice, base: &Base, number: u8) -> Vec<u8> {
    let empty = match number {
        REPL | DLET => 85,
        ISRT => 3,
        _ => 30,
    };
    if dice.percent(empty) {
        return Vec::new();
    }
    let mut words = words(dice, base);
    if number == ISRT {
        loosen_last(dice, base, &mut words);
    }
    list_of(&words)
}

/// Makes a list one for ISRT: no test in its last argument, and often a child type of it added, so that the
/// parent found exists.
pub fn loosen_last(dice: &mut Dice, base: &Base, words: &mut Vec<Word>) {
    let children = words
        .last()
        .map_or(Vec::new(), |last| base.plan.children(last.type_code));
    if !children.is_empty() && dice.percent(70) {
        let type_code = *dice.pick(&children);
        if dice.percent(40) {
            words.pop();
        }
        words.push(Word {
            type_code,
            operator: 0,
            field: 0,
            value: Vec::new(),
        });
    }
    if let Some(last) = words.last_mut() {
        if !dice.percent(5) {
            last.operator = 0;
        }
    }
}

/// A list with a fault at some place, or cut, or made of chance. A packed value that is no number is a fault too, and
/// often comes with another one, before it or behind it.
pub fn faulty_list(dice: &mut Dice, base: &Base) -> Vec<u8> {
    let mut words = words(dice, base);
    if dice.percent(40) && spoil_value(dice, &base.plan, &mut words) && dice.percent(50) {
        return list_of(&words);
    }
    let place = dice.below(words.len());
    let types = base.plan.types.len();
    let fields = base.plan.fields.len();
    let word = &mut words[place];
    match dice.below(11) {
        0 => word.type_code = 0,
        1 => word.type_code = (types + dice.between(1, 3)) as u8,
        2 => word.type_code = dice.between(1, types) as u8,
        3 => {
            let again = words[place].clone();
            words.insert(place, again);
        }
        4 => word.operator = *dice.pick(&[7, 8, 127, 255]),
        5 => (word.operator, word.field) = (1, 0),
        6 => (word.operator, word.field) = (6, (fields + dice.between(1, 2)) as u8),
        7 => (word.operator, word.field) = (2, dice.between(1, fields.max(1)) as u8),
        8 => {
            let mut list = list_of(&words);
            list.push(dice.byte());
            return list;
        }
        9 => {
            let length = dice.between(1, 9);
            return dice.bytes(length);
        }
        _ => {
            let mut list = list_of(&words);
            list.truncate(dice.below(list.len()));
            return list;
        }
    }
    list_of(&words)
}

/// Makes one of the packed values no number, if there is one.
fn spoil_value(dice: &mut Dice, plan: &Plan, words: &mut [Word]) -> bool {
    let mut packed: Vec<&mut Word> = words
        .iter_mut()
        .filter(|word| word.operator != 0 && plan.field(word.field).packed)
        .collect();
    let place = dice.below(packed.len());
    let Some(word) = packed.get_mut(place) else {
        return false;
    };
    packed::spoil(dice, &mut word.value);
    true
}

/// The type of the last argument of a list, unless one before it cannot be read.
pub fn last_type(plan: &Plan, list: &[u8]) -> Option<u8> {
    let (&[type_code, operator], rest) = list.split_first_chunk()?;
    plan.types.get(usize::from(type_code).checked_sub(1)?)?;
    let behind = match operator {
        0 => rest,
        _ => {
            let (&number, value) = rest.split_first()?;
            let field = plan.fields.get(usize::from(number).checked_sub(1)?)?;
            value.get(field.span().len()..)?
        }
    };
    match behind {
        [] => Some(type_code),
        _ => last_type(plan, behind),
    }
}

/// A list for a call: mostly sound.
pub fn list(dice: &mut Dice, base: &Base, number: u8) -> Vec<u8> {
    if dice.percent(12) {
        faulty_list(dice, base)
    } else {
        sound_list(dice, base, number)
    }
}

/// An area: exact, long or too short. What stands in it is data of the table at times, so that REPL finds its
/// key and ISRT its twin, and at times data for the type that the list ends with.
pub fn area(dice: &mut Dice, base: &Base, position: &[u8], list: &[u8]) -> Vec<u8> {
    let exact = base.plan.cell_size() - 1;
    let length = match dice.weighted(&[45, 43, 6, 3, 3]) {
        0 => exact,
        1 => exact + dice.between(1, 6),
        2 => exact - 1,
        3 => 0,
        _ => dice.below(exact),
    };
    let mut area = base.draw_data(dice, length);
    let named = last_type(&base.plan, list);
    if let Some(type_code) = named {
        overlay(&mut area, &base.draw_segment(dice, type_code));
    }
    if base.count() > 0 && dice.percent(60) {
        let cell = match placed_on(position) {
            Some(cell) if cell < base.count() && dice.percent(80) => cell,
            _ => dice.below(base.count()),
        };
        let shared = overlay(&mut area, base.data_at(cell));
        if shared > 0 && dice.percent(50) {
            area[dice.below(shared)] = *dice.pick(&base.alphabet);
        }
    }
    let held = placed_on(position).filter(|&cell| cell < base.count());
    if let Some(type_code) = named.or(held.map(|cell| base.type_at(cell))) {
        retouch_key(dice, &base.plan, type_code, &mut area);
    }
    area
}

/// Lays data over the front of an area, as much of it as there is room for, and tells how much.
pub fn overlay(area: &mut [u8], data: &[u8]) -> usize {
    let shared = data.len().min(area.len());
    area[..shared].copy_from_slice(&data[..shared]);
    shared
}

/// Does something to a packed key at times: other bytes of the same value, or no number.
pub fn retouch_key(dice: &mut Dice, plan: &Plan, type_code: u8, area: &mut [u8]) {
    let plan = plan.of(type_code);
    if let (true, Some(key)) = (plan.key_packed, area.get_mut(plan.key())) {
        match dice.weighted(&[55, 25, 20]) {
            0 => {}
            1 => packed::disguise(dice, key),
            _ => packed::spoil(dice, key),
        }
    }
}

/// The cell a position block says it is on.
pub fn placed_on(position: &[u8]) -> Option<usize> {
    match position {
        [1, high, low, ..] => Some(usize::from(*high) << 8 | usize::from(*low)),
        _ => None,
    }
}

pub fn is_held(position: &[u8]) -> bool {
    position.get(6) == Some(&1)
}
