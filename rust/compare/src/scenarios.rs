//! What a case does.

use crate::comparison::{Comparison, Difference, Left, Lent};
use crate::damage;
use crate::dice::Dice;
use crate::drawing::{self, Word};
use crate::plan::{FieldPlan, Plan, TypePlan};
use crate::table::{Base, Size};
use face::number::{DLET, GHN, GHNP, GHU, GN, GNP, GU, ISRT, REPL};
use face::status;

type Played = Result<(), Box<Difference>>;

/// How often the long and the wide cases come, in cases.
const LONG_EVERY: u64 = 150;
const HUGE_EVERY: u64 = 400;

/// Plays one case. The first is always the same: borders, and the bench table.
pub fn play(dice: &mut Dice, comparison: &mut Comparison, case: u64) -> Played {
    if case == 0 {
        return run_also(dice, comparison);
    }
    if case % HUGE_EVERY == HUGE_EVERY / 2 {
        return huge(dice, comparison);
    }
    if case % LONG_EVERY == LONG_EVERY / 2 {
        let steps = dice.between(1000, 3000);
        return session(dice, comparison, Size::Small, steps);
    }
    match dice.weighted(&[40, 30, 10, 4, 4, 7, 5]) {
        0 => singles(dice, comparison),
        1 => {
            let steps = dice.between(10, 120);
            session(dice, comparison, Size::Any, steps)
        }
        2 => damaged(dice, comparison),
        3 => makers(dice, comparison),
        4 => cuts(dice, comparison),
        5 => reports(dice, comparison),
        _ => loops(dice, comparison),
    }
}

/// Calls that have nothing to do with one another, on one table.
fn singles(dice: &mut Dice, comparison: &mut Comparison) -> Played {
    let base = Base::draw(dice, Size::Any);
    sound_blocks(comparison, &base)?;
    for _ in 0..25 {
        single(dice, comparison, &base)?;
    }
    Ok(())
}

fn single(dice: &mut Dice, comparison: &mut Comparison, base: &Base) -> Played {
    let number = drawing::number(dice);
    let position = drawing::position(dice, base);
    let list = drawing::list(dice, base, number);
    let area = drawing::area(dice, base, &position, &list);
    comparison.call(Lent {
        catalogue: &base.catalogue,
        table: &base.table,
        position: &position,
        number,
        list: &list,
        area: &area,
    })?;
    Ok(())
}

/// Both checks, on blocks that were drawn to be sound.
fn sound_blocks(comparison: &mut Comparison, base: &Base) -> Played {
    let catalogue = comparison.catalogue_check(&base.catalogue)?;
    comparison.insist(catalogue == status::BLANK, "drawn catalogue is sound")?;
    sound_table(comparison, base)
}

fn sound_table(comparison: &mut Comparison, base: &Base) -> Played {
    let table = comparison.table_check(&base.catalogue, &base.table)?;
    comparison.insist(table == status::BLANK, "table is sound")
}

/// A base on which calls follow one another, the position carried on.
struct Session {
    base: Base,
    position: Vec<u8>,
}

impl Session {
    fn new(base: Base) -> Session {
        Session {
            base,
            position: drawing::block(0, 0, None, false),
        }
    }

    /// A call; what it leaves behind is where the next one starts, and the table is checked.
    fn call(
        &mut self,
        comparison: &mut Comparison,
        number: u8,
        list: &[u8],
        area: &[u8],
    ) -> Result<Left, Box<Difference>> {
        let left = comparison.call(Lent {
            catalogue: &self.base.catalogue,
            table: &self.base.table,
            position: &self.position,
            number,
            list,
            area,
        })?;
        comparison.insist(
            !(status::CX..=status::PX).contains(&left.status()),
            "what a call leaves is sound",
        )?;
        let changed = self.base.table != left.table;
        self.base.table.copy_from_slice(&left.table);
        self.position.copy_from_slice(&left.position);
        if changed {
            sound_table(comparison, &self.base)?;
        }
        Ok(left)
    }

    /// An area that is long enough, with data for the type that the list ends with.
    fn area(&self, dice: &mut Dice, list: &[u8]) -> Vec<u8> {
        let length = self.base.plan.cell_size() - 1 + dice.below(3);
        let mut area = self.base.draw_data(dice, length);
        if let Some(type_code) = drawing::last_type(&self.base.plan, list) {
            let data = self.base.draw_segment(dice, type_code);
            drawing::overlay(&mut area, &data);
        }
        area
    }

    /// An area for ISRT, with something done to a packed key at times.
    fn addition(&self, dice: &mut Dice, list: &[u8]) -> Vec<u8> {
        let mut area = self.area(dice, list);
        let named = drawing::last_type(&self.base.plan, list);
        if let Some(type_code) = named.filter(|_| dice.percent(25)) {
            drawing::retouch_key(dice, &self.base.plan, type_code, &mut area);
        }
        area
    }

    /// An area for REPL: the held data, changed outside the key, and rarely within.
    fn replacement(&self, dice: &mut Dice, cell: usize) -> Vec<u8> {
        let data = self.base.data_at(cell);
        let type_code = self.base.type_at(cell);
        let mut area = self.area(dice, &[type_code, 0]);
        let key = self.base.plan.of(type_code).key();
        let strict = !dice.percent(15);
        for (index, &byte) in data.iter().enumerate() {
            if (key.contains(&index) && strict) || dice.percent(20) {
                area[index] = byte;
            }
        }
        if dice.percent(15) {
            drawing::retouch_key(dice, &self.base.plan, type_code, &mut area);
        }
        area
    }

    /// The next call of a session that mostly succeeds: with a hold it replaces or deletes, else it inserts
    /// while there is room and gets otherwise.
    fn step(&mut self, dice: &mut Dice, comparison: &mut Comparison) -> Played {
        if dice.percent(7) {
            return self.stray(dice, comparison);
        }
        let (count, capacity) = (self.base.count(), self.base.capacity());
        let crowded = count * 4 > capacity * 3;
        let held = drawing::placed_on(&self.position).filter(|_| drawing::is_held(&self.position));
        let number = match held {
            Some(_) => match dice.weighted(&[35, if crowded { 40 } else { 15 }, 35]) {
                0 => REPL,
                1 => DLET,
                _ => drawing::between(dice, GU, ISRT),
            },
            None => match dice.weighted(&[if crowded { 12 } else { 45 }, 35, 30]) {
                0 => ISRT,
                1 => drawing::between(dice, GHU, GHNP),
                _ => drawing::between(dice, GU, GNP),
            },
        };
        let list = match number {
            REPL | DLET => Vec::new(),
            ISRT if count == 0 || dice.percent(15) => vec![1, 0],
            _ => drawing::sound_list(dice, &self.base, number),
        };
        let area = match held {
            Some(cell) if number == REPL => self.replacement(dice, cell),
            _ => self.addition(dice, &list),
        };
        self.call(comparison, number, &list, &area)?;
        Ok(())
    }

    /// A call that may well be refused, or a place taken afresh.
    fn stray(&mut self, dice: &mut Dice, comparison: &mut Comparison) -> Played {
        if dice.percent(20) {
            self.position = drawing::good_position(dice, &self.base);
            return Ok(());
        }
        let number = drawing::number(dice);
        let list = drawing::list(dice, &self.base, number);
        let area = drawing::area(dice, &self.base, &self.position, &list);
        self.call(comparison, number, &list, &area)?;
        Ok(())
    }
}

fn session(dice: &mut Dice, comparison: &mut Comparison, size: Size, steps: usize) -> Played {
    let base = Base::draw(dice, size);
    let mut session = Session::new(base);
    for _ in 0..steps {
        session.step(dice, comparison)?;
    }
    Ok(())
}

/// A table of up to 4,096 cells.
fn huge(dice: &mut Dice, comparison: &mut Comparison) -> Played {
    let base = Base::draw(dice, Size::Huge);
    sound_blocks(comparison, &base)?;
    for _ in 0..10 {
        single(dice, comparison, &base)?;
    }
    let mut session = Session::new(base);
    session.position = drawing::good_position(dice, &session.base);
    for _ in 0..20 {
        session.step(dice, comparison)?;
    }
    Ok(())
}

/// Damaged blocks: checks, maker, and calls that must see the damage.
fn damaged(dice: &mut Dice, comparison: &mut Comparison) -> Played {
    let base = Base::draw(dice, Size::Small);
    for _ in 0..25 {
        let catalogue = if dice.percent(40) {
            damage::catalogue(dice, &base)
        } else {
            base.catalogue.clone()
        };
        let table = if dice.percent(70) {
            damage::table(dice, &base)
        } else {
            base.table.clone()
        };
        comparison.catalogue_check(&catalogue)?;
        comparison.table_check(&catalogue, &table)?;
        comparison.table_make(&catalogue, &table)?;
        let number = drawing::number(dice);
        let position = drawing::position(dice, &base);
        let list = drawing::list(dice, &base, number);
        let area = drawing::area(dice, &base, &position, &list);
        comparison.call(Lent {
            catalogue: &catalogue,
            table: &table,
            position: &position,
            number,
            list: &list,
            area: &area,
        })?;
        let length = dice.below(40);
        let room = dice.bytes(length);
        let (list1, list2) = pair_of_lists(dice, &base);
        comparison.reports(&catalogue, &table, &list1, &list2, &room)?;
    }
    Ok(())
}

/// The maker on slices of every small length, and at both ends of M; and types at the deepest level.
fn makers(dice: &mut Dice, comparison: &mut Comparison) -> Played {
    let plan = Plan::draw(dice);
    let catalogue = plan.block();
    let size = plan.cell_size();
    for _ in 0..20 {
        let length = match dice.below(4) {
            0 => dice.below(20),
            1 => 8 + size * dice.below(12),
            2 => 8 + size * dice.below(12) + 1,
            _ => dice.below(8 + 6 * size),
        };
        let slice = dice.bytes(length);
        let made = comparison.table_make(&catalogue, &slice)?;
        comparison.table_check(&catalogue, &made)?;
    }
    for levels in [15, 16] {
        let deep = Plan::chain(dice, levels).block();
        comparison.catalogue_check(&deep)?;
        comparison.table_make(&deep, &[0; 12])?;
    }
    too_many(comparison)?;
    value_types(comparison)
}

/// Value types of a key and of a field, with lengths about the longest packed one, and the zeros beside them.
fn value_types(comparison: &mut Comparison) -> Played {
    for length in [1, 16, 17] {
        for value in [0, 1, 2] {
            for key in [[0, 0, 0], [0, 1, length], [1, 1, length], [2, 3, length]] {
                for zeros in [[0, 0], [0, 1], [1, 0]] {
                    let entry = [&[0, 20], &key[..], &zeros, &[value]].concat();
                    let block = [b"HDC\x00\x01\x01\x00\x00", &entry[..]].concat();
                    comparison.catalogue_check(&block)?;
                }
            }
            let entry = [0, 20, 1, 1, 2, 0, 0, 0];
            let field = [1, 2, length, value];
            let block = [b"HDC\x00\x01\x01\x01\x00", &entry[..], &field].concat();
            comparison.catalogue_check(&block)?;
        }
    }
    Ok(())
}

/// T and F at their limits and one beyond, in blocks of the right length.
fn too_many(comparison: &mut Comparison) -> Played {
    for (types, fields) in [(0, 0), (1, 0), (32, 64), (33, 0), (1, 65), (255, 255)] {
        let mut block = b"HDC\x00\x01".to_vec();
        block.extend([types, fields, 0]);
        for code in 1..=types {
            block.extend([u8::from(code > 1), 1, 0, 0, 0, 0, 0, 0]);
        }
        for _ in 0..fields {
            block.extend([1, 1, 1, 0]);
        }
        comparison.catalogue_check(&block)?;
    }
    Ok(())
}

/// A list cut at every byte, for a call of each kind.
fn cuts(dice: &mut Dice, comparison: &mut Comparison) -> Played {
    let base = Base::draw(dice, Size::Small);
    let words = drawing::words(dice, &base);
    let list = drawing::list_of(&words);
    let position = drawing::good_position(dice, &base);
    let area = drawing::area(dice, &base, &position, &list);
    for end in 0..=list.len() {
        let number = drawing::number(dice);
        comparison.call(Lent {
            catalogue: &base.catalogue,
            table: &base.table,
            position: &position,
            number,
            list: &list[..end],
            area: &area,
        })?;
    }
    Ok(())
}

/// The three reports on random pairs of lists, with an out that is long, exact, too short or none at all.
fn reports(dice: &mut Dice, comparison: &mut Comparison) -> Played {
    let base = Base::draw(dice, Size::Any);
    for _ in 0..15 {
        let (list1, list2) = pair_of_lists(dice, &base);
        let ample = vec![0xEE; 2 * base.count() + 3];
        let packed = comparison.reports(&base.catalogue, &base.table, &list1, &list2, &ample)?;
        let hits = (packed >> 32) as usize;
        for room in [2 * hits, (2 * hits).saturating_sub(1), 0] {
            let out = vec![0xEE; room];
            comparison.reports(&base.catalogue, &base.table, &list1, &list2, &out)?;
        }
    }
    Ok(())
}

/// Two lists for a report. Mostly the second goes on beneath the first; each is empty, faulty, cut or of
/// another branch at times, so that every refusal is met beside every other.
fn pair_of_lists(dice: &mut Dice, base: &Base) -> (Vec<u8>, Vec<u8>) {
    let words = several_words(dice, base);
    let seam = dice.between(1, words.len().max(2) - 1).min(words.len());
    let list1 = drawing::list_of(&words[..seam]);
    let list2 = drawing::list_of(&words[seam..]);
    if dice.percent(8) {
        // The bytes of a sound pair, with the seam at any byte.
        let joined = [list1, list2].concat();
        let (front, behind) = joined.split_at(dice.below(joined.len() + 1));
        return (front.to_vec(), behind.to_vec());
    }
    (spoilt(dice, base, list1), spoilt(dice, base, list2))
}

/// The list as it is, mostly.
fn spoilt(dice: &mut Dice, base: &Base, list: Vec<u8>) -> Vec<u8> {
    match dice.weighted(&[80, 10, 5, 5]) {
        0 => list,
        1 => drawing::faulty_list(dice, base),
        2 => drawing::list_of(&drawing::words(dice, base)),
        _ => Vec::new(),
    }
}

/// A list with two arguments or more, if a few tries give one: a pair of lists needs them.
fn several_words(dice: &mut Dice, base: &Base) -> Vec<Word> {
    for _ in 0..6 {
        let words = drawing::words(dice, base);
        if words.len() > 1 {
            return words;
        }
    }
    drawing::words(dice, base)
}

/// Get-next loops with one list, which must end by call n + 1. One that ends in GB is followed by a second pass,
/// which must show every cell.
fn loops(dice: &mut Dice, comparison: &mut Comparison) -> Played {
    let base = Base::draw(dice, Size::Small);
    let count = base.count();
    let mut session = Session::new(base);
    for _ in 0..4 {
        session.position = drawing::good_position(dice, &session.base);
        let number = *dice.pick(&[GN, GHN, GNP, GHNP]);
        let list = drawing::sound_list(dice, &session.base, number);
        let area = session.area(dice, &list);
        let mut calls = 1;
        let last = loop {
            let status = session.call(comparison, number, &list, &area)?.status();
            if status >= status::GB {
                break status;
            }
            comparison.insist(calls <= count, "get-next loop ends by call n + 1")?;
            calls += 1;
        };
        if last == status::GB {
            second_pass(comparison, &mut session, number, &area)?;
        }
    }
    Ok(())
}

/// From a GB: n segments, and then GB again.
fn second_pass(
    comparison: &mut Comparison,
    session: &mut Session,
    number: u8,
    area: &[u8],
) -> Played {
    for _ in 0..session.base.count() {
        let status = session.call(comparison, number, &[], area)?.status();
        comparison.insist(status < status::GB, "get-next after GB starts over")?;
    }
    let status = session.call(comparison, number, &[], area)?.status();
    comparison.insist(status == status::GB, "the second pass ends in GB")
}

/// Borders: no cells, a full table, levels 15 and 16, 4,096 and 4,097 cells; and the bench table itself.
fn run_also(dice: &mut Dice, comparison: &mut Comparison) -> Played {
    bench(comparison)?;
    no_cells(comparison)?;
    full_delete_insert(comparison)?;
    every_packed_byte(comparison)?;
    deepest(dice, comparison)?;
    most_cells(dice, comparison)
}

fn bench(comparison: &mut Comparison) -> Played {
    let mut session = Session::new(Base::bench());
    for _ in 0..12 {
        session.call(comparison, GN, &[], &[0; 3])?;
    }
    Ok(())
}

fn no_cells(comparison: &mut Comparison) -> Played {
    let base = Base::bench();
    let table = comparison.table_make(&base.catalogue, &[7; 8])?;
    let mut session = Session::new(Base::new(base.plan, table, base.alphabet));
    let refused = session.call(comparison, ISRT, &[1, 0], b"08C")?;
    comparison.insist(refused.status() == status::FX, "no cell is free")
}

fn full_delete_insert(comparison: &mut Comparison) -> Played {
    let mut session = Session::new(Base::bench());
    for unit in [b"10A", b"11A", b"12A"] {
        session.call(comparison, ISRT, &[1, 0], unit)?;
    }
    comparison.insist(session.base.count() == 12, "the table is full")?;
    session.call(comparison, ISRT, &[1, 0], b"13A")?;
    session.call(comparison, GHU, b"\x01\x01\x0111", &[0; 3])?;
    session.call(comparison, DLET, &[], &[])?;
    let done = session.call(comparison, ISRT, &[1, 0], b"13A")?;
    comparison.insist(done.status() == status::BLANK, "the freed cell is used")
}

/// Every byte there is as a packed key: those that are numbers go in, one of each value; then every byte as the value of
/// a test, with each operator.
fn every_packed_byte(comparison: &mut Comparison) -> Played {
    let plan = Plan {
        types: vec![TypePlan {
            parent: 0,
            length: 1,
            kind: 1,
            key_start: 1,
            key_length: 1,
            key_packed: true,
        }],
        fields: vec![FieldPlan {
            type_code: 1,
            start: 1,
            length: 1,
            packed: true,
        }],
    };
    let table = comparison.table_make(&plan.block(), &[0; 8 + 2 * 19])?;
    let mut session = Session::new(Base::new(plan, table, vec![0x0C]));
    for byte in 0..=255 {
        session.call(comparison, ISRT, &[1, 0], &[byte])?;
    }
    comparison.insist(session.base.count() == 19, "the numbers from -9 to 9")?;
    for byte in 0..=255 {
        for operator in 1..=6 {
            session.call(comparison, GU, &[1, operator, 1, byte], &[0])?;
        }
    }
    Ok(())
}

/// Level 15, filled from the top down, and level 16.
fn deepest(dice: &mut Dice, comparison: &mut Comparison) -> Played {
    let plan = Plan::chain(dice, 15);
    let slice = vec![0; 8 + 20 * plan.cell_size()];
    let table = comparison.table_make(&plan.block(), &slice)?;
    let mut session = Session::new(Base::new(plan, table, vec![1, 2]));
    for level in 1..=15 {
        let area = session.area(dice, &[level, 0]);
        session.call(comparison, ISRT, &[level, 0], &area)?;
    }
    comparison.insist(session.base.count() == 15, "fifteen levels")?;
    for _ in 0..16 {
        let area = session.area(dice, &[]);
        session.call(comparison, GN, &[], &area)?;
    }
    let deeper = Plan::chain(dice, 16).block();
    let refused = comparison.catalogue_check(&deeper)?;
    comparison.insist(refused == status::CX, "level 16 is refused")
}

/// M = 4,096 filled to the last cell, and M = 4,097.
fn most_cells(dice: &mut Dice, comparison: &mut Comparison) -> Played {
    let base = Base::bench();
    let more = vec![0; 8 + 4097 * 4];
    comparison.table_make(&base.catalogue, &more)?;
    let mut table = comparison.table_make(&base.catalogue, &more[4..])?;
    let mut one_more = table.clone();
    one_more.resize(more.len(), 0);
    comparison.table_check(&base.catalogue, &one_more)?;
    table[8..12].copy_from_slice(b"\x0107A");
    for cell in 1..4096 {
        table[8 + 4 * cell] = 4;
        table[9 + 4 * cell] = cell as u8;
    }
    table[6..8].copy_from_slice(&4096u16.to_be_bytes());
    let full = Base::new(base.plan, table, base.alphabet);
    let mut session = Session::new(full);
    for cell in [0, 1, 2047, 4094, 4095] {
        session.position = drawing::block(1, cell, Some(0), true);
        session.call(comparison, GN, &[], &[0; 3])?;
    }
    session.call(comparison, ISRT, &[4, 0], b"n  ")?;
    session.position = drawing::block(1, 2000, Some(0), true);
    session.call(comparison, DLET, &[], &[])?;
    session.call(comparison, ISRT, &[4, 0], b"n  ")?;
    session.position = drawing::block(1, 0, Some(0), true);
    session.call(comparison, DLET, &[], &[])?;
    comparison.insist(session.base.count() == 0, "the whole run is gone")?;
    for _ in 0..10 {
        session.step(dice, comparison)?;
    }
    Ok(())
}
