//! GU, GN, GHU, GHN, ISRT and DLET.

use super::blocks::{
    cell, cell_size, check_catalogue, check_table, count, parent_cell, run_end, Catalogue,
};
use super::lists::{Argument, Levels, List};
use super::values;
use face::number::{DLET, GHN, GHU, GN, GU, ISRT};
use face::status::*;
use std::cmp::Ordering;
use std::ops::Range;

/// The call with every check.
pub fn call(
    catalogue: &[u8],
    table: &mut [u8],
    position: &mut [u8],
    number: u8,
    list: &[u8],
    area: &mut [u8],
) -> u64 {
    let Some(types) = check_catalogue(catalogue) else {
        return u64::from(CX);
    };
    if !check_table(&types, table) {
        return u64::from(TX);
    }
    if !check_position(Catalogue(catalogue), table, position) {
        return u64::from(PX);
    }
    call_sound(catalogue, table, position, number, list, area)
}

/// Place, parentage and hold, as the block has them.
struct Position {
    on: bool,
    cell: usize,
    parentage: Option<usize>,
    hold: bool,
}

impl Position {
    fn read(block: &[u8]) -> Position {
        let number = |at: usize| usize::from(block[at]) << 8 | usize::from(block[at + 1]);
        Position {
            on: block[0] == 1,
            cell: number(1),
            parentage: (block[3] == 1).then(|| number(4)),
            hold: block[6] == 1,
        }
    }

    fn write(&self, block: &mut [u8]) {
        let [high, low] = (self.cell as u16).to_be_bytes();
        let [parent_high, parent_low] = (self.parentage.unwrap_or(0) as u16).to_be_bytes();
        block.copy_from_slice(&[
            u8::from(self.on),
            high,
            low,
            u8::from(self.parentage.is_some()),
            parent_high,
            parent_low,
            u8::from(self.hold),
            0,
        ]);
    }

    /// The first cell that a get-next looks at.
    fn next(&self) -> usize {
        self.cell + usize::from(self.on)
    }
}

fn check_position(catalogue: Catalogue, table: &[u8], block: &[u8]) -> bool {
    let canonical = block.len() == 8
        && block[0] <= 1
        && block[3] <= 1
        && block[6] <= 1
        && block[7] == 0
        && (block[3] == 1 || block[4..6] == [0, 0]);
    if !canonical {
        return false;
    }
    let position = Position::read(block);
    let count = count(table);
    let placed = position.cell < count || (!position.on && position.cell == count);
    if !placed || (position.hold && !position.on) {
        return false;
    }
    let Some(parent) = position.parentage else {
        return true;
    };
    if position.on && parent == position.cell {
        return true;
    }
    if parent >= position.cell {
        return false;
    }
    let end = run_end(catalogue, table, cell_size(table), parent);
    position.cell < end || (!position.on && position.cell == end)
}

fn packed(catalogue: Catalogue, status: u8, code: u8, removed: usize) -> u64 {
    u64::from(status)
        | u64::from(code) << 8
        | u64::from(catalogue.level(code)) << 16
        | (catalogue.length(code) as u64) << 24
        | (removed as u64) << 32
}

/// The call on blocks and a position that are good.
pub fn call_sound(
    catalogue: &[u8],
    table: &mut [u8],
    position: &mut [u8],
    number: u8,
    list: &[u8],
    area: &mut [u8],
) -> u64 {
    let mut lent = Lent {
        catalogue: Catalogue(catalogue),
        size: cell_size(table),
        count: count(table),
        position: Position::read(position),
        table,
        block: position,
        area,
    };
    lent.call(number, list).unwrap_or_else(u64::from)
}

/// What a call is lent, with what is read off it at once.
struct Lent<'a> {
    catalogue: Catalogue<'a>,
    size: usize,
    count: usize,
    position: Position,
    table: &'a mut [u8],
    block: &'a mut [u8],
    area: &'a mut [u8],
}

impl Lent<'_> {
    fn call(&mut self, number: u8, list: &[u8]) -> Result<u64, u8> {
        if !matches!(number, GU | GN | GHU | GHN | ISRT | DLET) {
            return Err(AD);
        }
        // The common case of a get-next needs no room for arguments.
        if number == GN && list.is_empty() && self.area.len() + 1 >= self.size {
            let next = self.position.next();
            return self.got(number, (next < self.count).then_some(next), true);
        }
        let mut read = List::empty();
        read.read(self.catalogue, list)?;
        let arguments = read.arguments();
        match (number, arguments.last()) {
            (ISRT, None) => return Err(AH),
            (ISRT, Some(last)) if last.test.is_some() => return Err(AJ),
            (DLET, Some(_)) => return Err(AJ),
            _ => {}
        }
        if number != DLET && self.area.len() + 1 < self.size {
            return Err(AB);
        }
        match number {
            ISRT => self.insert(arguments),
            DLET => self.delete(),
            _ => self.got(number, self.find(number, arguments), arguments.is_empty()),
        }
    }

    fn code(&self, number: usize) -> u8 {
        self.table[8 + number * self.size]
    }

    fn find(&self, number: u8, list: &[Argument]) -> Option<usize> {
        let unique = matches!(number, GU | GHU);
        let next = self.position.next();
        let Some(last) = list.last() else {
            let first = if unique { 0 } else { next };
            return (first < self.count).then_some(first);
        };
        let levels = Levels::complete(self.catalogue, list, last.code);
        if unique {
            return self.along(&levels);
        }
        let mut agreed = match next {
            0 => 0,
            _ => self.stretch(&levels, next - 1).0,
        };
        levels.seek(self.table, self.size, next..self.count, &mut agreed)
    }

    /// How many levels of the path to a cell agree with a completed list, and the cells of that path by level.
    fn stretch(&self, levels: &Levels, number: usize) -> (u8, [usize; 16]) {
        let mut path = [0; 16];
        let mut at = number;
        let depth = self.catalogue.level(self.code(number));
        for level in (1..=depth).rev() {
            path[usize::from(level)] = at;
            at = parent_cell(self.catalogue, self.table, self.size, at).unwrap_or(0);
        }
        let agrees = |&level: &u8| {
            let cell = cell(self.table, self.size, path[usize::from(level)]);
            levels.rank_of(cell[0]) == level && levels.admits(level, cell)
        };
        let agreed = (1..=depth).take_while(agrees).count();
        (agreed as u8, path)
    }

    /// The first match along the position; the kept segment itself where no level is left.
    fn along(&self, levels: &Levels) -> Option<usize> {
        let (mut kept, mut path) = (0, [0; 16]);
        if self.position.on {
            let (agreed, cells) = self.stretch(levels, self.position.cell);
            let implied = (1..=agreed).rev().find(|&level| levels.is_implied(level));
            (kept, path) = (implied.unwrap_or(0), cells);
        }
        let mut agreed = kept;
        match (kept, path[usize::from(kept)]) {
            (0, _) => levels.seek(self.table, self.size, 0..self.count, &mut agreed),
            (_, cell) if kept == levels.depth => Some(cell),
            (_, cell) => {
                let end = run_end(self.catalogue, self.table, self.size, cell);
                levels.seek(self.table, self.size, cell + 1..end, &mut agreed)
            }
        }
    }

    /// What a get leaves behind; `bare` says that it had no list.
    fn got(&mut self, number: u8, found: Option<usize>, bare: bool) -> Result<u64, u8> {
        let next = matches!(number, GN | GHN);
        let Some(found) = found else {
            if next && bare {
                self.block.fill(0);
                return Ok(u64::from(GB));
            }
            self.block[6] = 0;
            return Ok(u64::from(GE));
        };
        let code = self.code(found);
        let mut status = BLANK;
        if next && bare && self.position.on {
            let before = self.code(self.position.cell);
            let (level, left) = (self.catalogue.level(code), self.catalogue.level(before));
            status = match level.cmp(&left) {
                Ordering::Less => GA,
                Ordering::Equal if code != before => GK,
                _ => BLANK,
            };
        }
        let length = self.catalogue.length(code);
        let data = &cell(self.table, self.size, found)[1..=length];
        self.area[..length].copy_from_slice(data);
        self.leave(true, found, Some(found), matches!(number, GHU | GHN));
        Ok(packed(self.catalogue, status, code, 0))
    }

    fn leave(&mut self, on: bool, cell: usize, parentage: Option<usize>, hold: bool) {
        let after = Position {
            on,
            cell,
            parentage,
            hold,
        };
        after.write(self.block);
    }

    fn insert(&mut self, list: &[Argument]) -> Result<u64, u8> {
        let (last, above) = list.split_last().expect("an empty list was refused");
        let code = last.code;
        let twins = match self.catalogue.parent(code) {
            0 => 0..self.count,
            parent => {
                let levels = Levels::complete(self.catalogue, above, parent);
                let Some(found) = self.along(&levels) else {
                    self.block[6] = 0;
                    return Ok(u64::from(GE));
                };
                found + 1..run_end(self.catalogue, self.table, self.size, found)
            }
        };
        let spot = self.spot(twins, code)?;
        let all = 8 + self.count * self.size;
        if all + self.size > self.table.len() {
            return Err(FX);
        }
        let (at, length) = (8 + spot * self.size, self.catalogue.length(code));
        self.table.copy_within(at..all, at + self.size);
        let (data, zeros) = self.table[at..at + self.size].split_at_mut(1 + length);
        data[0] = code;
        data[1..].copy_from_slice(&self.area[..length]);
        zeros.fill(0);
        self.recount(self.count + 1);
        let beneath =
            |&p: &usize| p < spot && spot < run_end(self.catalogue, self.table, self.size, p);
        let parentage = self.position.parentage.filter(beneath);
        self.leave(true, spot, parentage, false);
        Ok(packed(self.catalogue, BLANK, code, 0))
    }

    fn recount(&mut self, count: usize) {
        self.table[6..8].copy_from_slice(&(count as u16).to_be_bytes());
    }

    /// Where a new segment goes among the children in these cells, or PD or II.
    fn spot(&self, cells: Range<usize>, code: u8) -> Result<usize, u8> {
        let key = self.catalogue.key(code);
        if !self.catalogue.has_packed_key(code) {
            let new = &self.area[key.clone()];
            return self.spot_by(cells, code, |data| data[key.clone()].cmp(new));
        }
        let new = values::number(&self.area[key.clone()]).ok_or(PD)?;
        self.spot_by(cells, code, |data| {
            values::number(&data[key.clone()]).cmp(&Some(new))
        })
    }

    /// The same, given how the key in some data stands to the new one.
    fn spot_by(
        &self,
        cells: Range<usize>,
        code: u8,
        order: impl Fn(&[u8]) -> Ordering,
    ) -> Result<usize, u8> {
        let keyed = !self.catalogue.key(code).is_empty();
        let level = self.catalogue.level(code);
        for number in cells.clone() {
            let cell = cell(self.table, self.size, number);
            if cell[0] == code && keyed {
                match order(&cell[1..]) {
                    Ordering::Equal if self.catalogue.has_unique_key(code) => return Err(II),
                    Ordering::Greater => return Ok(number),
                    _ => {}
                }
            } else if cell[0] > code && self.catalogue.level(cell[0]) == level {
                return Ok(number);
            }
        }
        Ok(cells.end)
    }

    fn delete(&mut self) -> Result<u64, u8> {
        if !self.position.hold {
            return Err(DJ);
        }
        let held = self.position.cell;
        let code = self.code(held);
        let end = run_end(self.catalogue, self.table, self.size, held);
        let removed = end - held;
        let all = 8 + self.count * self.size;
        self.table
            .copy_within(8 + end * self.size..all, 8 + held * self.size);
        self.table[all - removed * self.size..all].fill(0);
        self.recount(self.count - removed);
        let parentage = self.position.parentage.filter(|&above| above < held);
        self.leave(false, held, parentage, false);
        Ok(packed(self.catalogue, BLANK, code, removed))
    }
}
