//! Many calls by chance: what the store keeps stays sound, which is all that its calls ask, and what is read beside them
//! is what they would show.

use crate::bench::*;
use crate::reading::is_read_as_got;
use umbristal::{Argument, Op, Place, Status, Store, TypeCode};

/// Numbers without a pattern.
struct Dice(u64);

impl Dice {
    fn below(&mut self, limit: u64) -> u64 {
        self.0 ^= self.0 << 13;
        self.0 ^= self.0 >> 7;
        self.0 ^= self.0 << 17;
        self.0 % limit
    }
}

/// One call, of which only matters what it leaves behind.
fn step_by_chance(dice: &mut Dice, store: &mut Store) {
    let key = [b'0' + dice.below(2) as u8, b'0' + dice.below(10) as u8];
    let all = Argument::all(TypeCode(dice.below(6) as u8));
    let lists = [
        vec![],
        vec![all],
        vec![unit(&key)],
        vec![step(&key)],
        vec![unit(&key), Argument::all(STEP)],
        vec![Argument::test(TRY, VERDICT, Op::Ge, &key[1..])],
    ];
    let list = &lists[dice.below(lists.len() as u64) as usize];
    let data = [key[0], key[1], b'X'];
    let data = &data[..dice.below(20).min(3) as usize];
    // Whether it is refused does not matter here.
    let _ = match dice.below(10) {
        0 => store.get_unique(list).found().is_ok(),
        1 => store.get_next(list).found().is_ok(),
        2 => store.get_next_within_parent(list).found().is_ok(),
        3 => store.get_hold_unique(list).found().is_ok(),
        4 => store.get_hold_next(list).found().is_ok(),
        5 => store.get_hold_next_within_parent(list).found().is_ok(),
        6 => store.replace(data).is_ok(),
        7 => store.delete().is_ok(),
        _ => store.insert(list, data).is_ok(),
    };
    is_read_as_got(store, list);
    if dice.below(50) == 0 {
        store.rewind();
    }
}

/// The position's block, from what the store tells of it.
fn position(store: &Store) -> [u8; 8] {
    let (kind, cell) = match store.place() {
        Place::Before(cell) => (0, cell),
        Place::On(cell) => (1, cell),
    };
    let [high, low] = cell.0.to_be_bytes();
    let parentage = store.parentage();
    let [parent_high, parent_low] = parentage.map_or([0, 0], |cell| cell.0.to_be_bytes());
    let (parented, hold) = (parentage.is_some().into(), store.is_held().into());
    [kind, high, low, parented, parent_high, parent_low, hold, 0]
}

#[test]
fn blocks_and_position() {
    let mut dice = Dice(0x9E37_79B9);
    let mut store = store();
    for _ in 0..20_000 {
        step_by_chance(&mut dice, &mut store);
        let (catalogue, mut table) = store.clone().into_blocks();
        // No call has number 0, and that is found only behind blocks and a position that are good.
        let mut position = position(&store);
        let answer = linked::call(&catalogue, &mut table, &mut position, 0, &[], &mut []);
        assert_eq!(answer, Status::AD.number().into());
    }
    assert!(store.count() > 0);
}
