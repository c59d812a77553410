//! Catalogues: how they are drawn, and what the drawing of tables and lists needs to know of them.

use crate::dice::Dice;
use crate::packed;
use judge::values::ValueType;
use std::ops::Range;

#[derive(Clone, Copy, Debug)]
pub struct TypePlan {
    pub parent: u8,
    pub length: u8,
    pub kind: u8,
    pub key_start: u8,
    pub key_length: u8,
    pub key_packed: bool,
}

impl TypePlan {
    /// Where the key stands in the data; without a key, nowhere.
    pub fn key(&self) -> Range<usize> {
        span(self.key_start, self.key_length)
    }

    pub fn key_value(&self) -> ValueType {
        value_type(self.key_packed)
    }
}

#[derive(Clone, Copy, Debug)]
pub struct FieldPlan {
    pub type_code: u8,
    pub start: u8,
    pub length: u8,
    pub packed: bool,
}

impl FieldPlan {
    /// Where it stands in the data.
    pub fn span(&self) -> Range<usize> {
        span(self.start, self.length)
    }
}

fn span(start: u8, length: u8) -> Range<usize> {
    let first = usize::from(start.max(1)) - 1;
    first..first + usize::from(length)
}

fn value_type(packed: bool) -> ValueType {
    match packed {
        true => ValueType::Packed,
        false => ValueType::Bytes,
    }
}

#[derive(Clone, Debug)]
pub struct Plan {
    pub types: Vec<TypePlan>,
    pub fields: Vec<FieldPlan>,
}

impl Plan {
    /// The bench catalogue.
    pub fn bench() -> Plan {
        let types = [
            (0, 3, 1, 1, 2),
            (1, 3, 1, 1, 2),
            (2, 2, 0, 0, 0),
            (1, 1, 0, 0, 0),
        ];
        let fields = [(1, 1, 2), (2, 1, 2), (3, 1, 1), (2, 3, 1)];
        let type_plan = |(parent, length, kind, key_start, key_length)| TypePlan {
            parent,
            length,
            kind,
            key_start,
            key_length,
            key_packed: false,
        };
        let field_plan = |(type_code, start, length)| FieldPlan {
            type_code,
            start,
            length,
            packed: false,
        };
        Plan {
            types: types.map(type_plan).to_vec(),
            fields: fields.map(field_plan).to_vec(),
        }
    }

    /// A chain of types, each beneath the one before.
    pub fn chain(dice: &mut Dice, levels: u8) -> Plan {
        let types = (0..levels).map(|parent| draw_type(dice, parent)).collect();
        let mut plan = Plan {
            types,
            fields: Vec::new(),
        };
        plan.draw_fields(dice);
        plan
    }

    /// A sound catalogue, small or large; somewhat less than half of them have packed values.
    pub fn draw(dice: &mut Dice) -> Plan {
        let mut plan = Plan::of_bytes(dice);
        if dice.percent(45) {
            plan.pack(dice);
        }
        plan
    }

    /// A sound catalogue without packed values.
    pub fn of_bytes(dice: &mut Dice) -> Plan {
        let count = match dice.weighted(&[50, 25, 15, 10]) {
            0 => dice.between(1, 5),
            1 => dice.between(3, 10),
            2 => dice.between(11, 32),
            _ => {
                let mut plan = Plan::chain(dice, 15);
                plan.draw_types(dice, 15);
                plan.draw_fields(dice);
                return plan;
            }
        };
        let mut plan = Plan {
            types: vec![draw_type(dice, 0)],
            fields: Vec::new(),
        };
        plan.draw_types(dice, count);
        plan.draw_fields(dice);
        plan
    }

    fn draw_types(&mut self, dice: &mut Dice, count: usize) {
        while self.types.len() < count {
            let mut lineage = self.lineage(self.types.len() as u8);
            lineage.truncate(14);
            let parent = *dice.pick(&lineage);
            self.types.push(draw_type(dice, parent));
        }
    }

    fn draw_fields(&mut self, dice: &mut Dice) {
        let count = match dice.below(20) {
            0 => 0,
            1 => 64,
            _ => dice.between(1, 2 * self.types.len()).min(64),
        };
        self.fields = (0..count).map(|_| self.draw_field(dice)).collect();
    }

    /// Makes some keys and fields packed, each for itself: of a key and a field over it often both, and at times one.
    /// Some types are first made long enough for the longest numbers.
    fn pack(&mut self, dice: &mut Dice) {
        for each in &mut self.types {
            if dice.percent(12) {
                each.length = each.length.max(dice.between(15, 20) as u8);
                if each.kind != 0 {
                    each.key_length = (each.length + 1 - each.key_start).min(17);
                }
            }
            each.key_packed =
                each.kind != 0 && each.key().len() <= packed::LONGEST && dice.percent(65);
        }
        for field in &mut self.fields {
            let owner = self.types[usize::from(field.type_code) - 1];
            let over_key = owner.kind != 0 && field.start == owner.key_start;
            if over_key && dice.percent(60) {
                field.length = owner.key_length;
            } else if owner.length > 14 && dice.percent(50) {
                field.length = (owner.length + 1 - field.start).min(17);
            }
            let likely = match over_key && owner.key_packed {
                true => 75,
                false => 40,
            };
            field.packed = field.span().len() <= packed::LONGEST && dice.percent(likely);
        }
    }

    /// A field: often just the key, so that keys are asked for, else any stretch.
    fn draw_field(&self, dice: &mut Dice) -> FieldPlan {
        let type_code = dice.between(1, self.types.len()) as u8;
        let owner = self.of(type_code);
        let (start, length) = if owner.kind != 0 && dice.percent(40) {
            (owner.key_start, owner.key_length)
        } else {
            draw_stretch(dice, owner.length)
        };
        FieldPlan {
            type_code,
            start,
            length,
            packed: false,
        }
    }

    pub fn of(&self, type_code: u8) -> &TypePlan {
        &self.types[usize::from(type_code) - 1]
    }

    /// The types from the root type to this one.
    pub fn lineage(&self, type_code: u8) -> Vec<u8> {
        let mut upwards = vec![type_code];
        let mut above = self.of(type_code).parent;
        while above != 0 {
            upwards.push(above);
            above = self.of(above).parent;
        }
        upwards.reverse();
        upwards
    }

    pub fn level(&self, type_code: u8) -> usize {
        self.lineage(type_code).len()
    }

    pub fn children(&self, type_code: u8) -> Vec<u8> {
        (1..=self.types.len() as u8)
            .filter(|&child| self.of(child).parent == type_code)
            .collect()
    }

    pub fn cell_size(&self) -> usize {
        1 + self
            .types
            .iter()
            .map(|each| usize::from(each.length))
            .max()
            .unwrap_or(0)
    }

    /// The numbers of the fields of a type.
    pub fn fields_of(&self, type_code: u8) -> Vec<u8> {
        (1..=self.fields.len() as u8)
            .filter(|&number| self.field(number).type_code == type_code)
            .collect()
    }

    pub fn field(&self, number: u8) -> &FieldPlan {
        &self.fields[usize::from(number) - 1]
    }

    /// The catalogue's bytes.
    pub fn block(&self) -> Vec<u8> {
        let mut block = b"HDC\x00\x01".to_vec();
        block.extend([self.types.len() as u8, self.fields.len() as u8, 0]);
        for each in &self.types {
            let key = [each.kind, each.key_start, each.key_length];
            block.extend([each.parent, each.length]);
            block.extend(key);
            block.extend([0, 0, u8::from(each.key_packed)]);
        }
        for each in &self.fields {
            let packed = u8::from(each.packed);
            block.extend([each.type_code, each.start, each.length, packed]);
        }
        block
    }
}

fn draw_type(dice: &mut Dice, parent: u8) -> TypePlan {
    let length = match dice.below(30) {
        0 => 120,
        1 => dice.between(1, 120),
        _ => dice.between(1, 4),
    } as u8;
    let kind = dice.below(3) as u8;
    let (key_start, key_length) = match kind {
        0 => (0, 0),
        _ => draw_stretch(dice, length),
    };
    TypePlan {
        parent,
        length,
        kind,
        key_start,
        key_length,
        key_packed: false,
    }
}

/// Start and length within that many bytes.
fn draw_stretch(dice: &mut Dice, limit: u8) -> (u8, u8) {
    let start = dice.between(1, usize::from(limit));
    let length = dice.between(1, usize::from(limit) + 1 - start);
    (start as u8, length as u8)
}
