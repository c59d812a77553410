//! Slices that are too long for the blocks, and those that just have room: the judge is lent the slices as they are, and
//! the two must agree.

use crate::BY_REFERENCE;
use compare::JUDGE;
use face::number::{GN, GU, ISRT};
use face::{status, Functions, FRESH};

const LEVELS: u8 = 15;
const DATA: u8 = 120;
const CELLS: usize = 4096;
const CELL: usize = DATA as usize + 1;

/// A path of 15 types, each with 120 data bytes and a field of all of them.
fn catalogue() -> Vec<u8> {
    let mut catalogue = b"HDC\x00\x01".to_vec();
    catalogue.extend([LEVELS, LEVELS, 0]);
    for parent in 0..LEVELS {
        catalogue.extend([parent, DATA, 0, 0, 0, 0, 0, 0]);
    }
    for code in 1..=LEVELS {
        catalogue.extend([code, 1, DATA, 0]);
    }
    catalogue
}

/// The longest table: a root, and as many children of it as have room.
fn table() -> Vec<u8> {
    let mut table = b"HDT\x00\x01".to_vec();
    table.push(CELL as u8);
    table.extend((CELLS as u16).to_be_bytes());
    for cell in 0..CELLS {
        table.push(1 + u8::from(cell > 0));
        table.extend([b'a'; DATA as usize]);
    }
    table
}

/// The longest list: a test of every type.
fn list() -> Vec<u8> {
    let test = |code| [vec![code, 1, code], vec![b'a'; usize::from(DATA)]].concat();
    (1..=LEVELS).flat_map(test).collect()
}

/// Bytes with so many more behind them, all of them the same.
fn and_more(bytes: &[u8], more: usize, byte: u8) -> Vec<u8> {
    [bytes, &vec![byte; more]].concat()
}

/// What is lent to a call.
struct Lent {
    cat: Vec<u8>,
    tab: Vec<u8>,
    pos: Vec<u8>,
    list: Vec<u8>,
    area: Vec<u8>,
}

impl Lent {
    /// All as long as it can be.
    fn right() -> Lent {
        Lent {
            cat: catalogue(),
            tab: table(),
            pos: FRESH.to_vec(),
            list: list(),
            area: vec![b'z'; usize::from(DATA)],
        }
    }
}

/// The status of a call that both answer alike, and leave everything alike.
fn agreed(number: u8, lent: &Lent) -> u8 {
    let left = |store: &Functions| {
        let (mut tab, mut pos, mut area) = (lent.tab.clone(), lent.pos.clone(), lent.area.clone());
        let result = (store.call)(&lent.cat, &mut tab, &mut pos, number, &lent.list, &mut area);
        (result, tab, pos, area)
    };
    let (judged, told) = (left(&JUDGE), left(&BY_REFERENCE));
    assert!(
        judged == told,
        "call {number}: {:x} and {:x}",
        judged.0,
        told.0
    );
    told.0 as u8
}

#[test]
fn catalogues() {
    let mut lent = Lent::right();
    assert_eq!(agreed(GN, &lent), status::GE);
    for more in [1, 521 - lent.cat.len(), 522 - lent.cat.len(), 600] {
        lent.cat = and_more(&catalogue(), more, 0);
        assert_eq!(agreed(GN, &lent), status::CX);
    }
}

#[test]
fn tables() {
    let mut lent = Lent::right();
    for more in [1, 2, CELL, 70_000] {
        lent.tab = and_more(&table(), more, 0);
        assert_eq!(agreed(GN, &lent), status::TX);
        let mut made = [lent.tab.clone(), lent.tab.clone()];
        let answers = [
            (JUDGE.table_make)(&lent.cat, &mut made[0]),
            (BY_REFERENCE.table_make)(&lent.cat, &mut made[1]),
        ];
        assert_eq!(answers, [status::TX; 2]);
        assert!(made[0] == made[1]);
    }
}

#[test]
fn lists() {
    let mut lent = Lent::right();
    for more in [1, 2, 1000] {
        for byte in [0, 1, LEVELS] {
            lent.list = and_more(&list(), more, byte);
            assert_eq!(agreed(GU, &lent), status::AC);
        }
    }
}

#[test]
fn areas() {
    let mut lent = Lent::right();
    lent.list = vec![2, 0];
    for (length, get, insert) in [
        (119, status::AB, status::AB),
        (120, status::BLANK, status::FX),
        (121, status::BLANK, status::FX),
        (400, status::BLANK, status::FX),
    ] {
        lent.area = vec![b'z'; length];
        assert_eq!(agreed(GN, &lent), get);
        assert_eq!(agreed(ISRT, &lent), insert);
    }
}

#[test]
fn positions() {
    let mut lent = Lent::right();
    for length in [0, 7, 9, 16] {
        lent.pos = vec![0; length];
        assert_eq!(agreed(GN, &lent), status::PX);
    }
}

#[test]
fn outs() {
    let (cat, tab) = (catalogue(), table());
    let hits = 2 * (CELLS - 1);
    for (room, status) in [
        (hits - 1, status::AB),
        (hits, status::BLANK),
        (2 * CELLS, status::BLANK),
        (2 * CELLS + 1000, status::BLANK),
    ] {
        let report = |store: &Functions| {
            let mut out = vec![0xEE; room];
            let result = (store.report_plain)(&cat, &tab, &[1, 0], &[2, 0], &mut out);
            (result, out)
        };
        let (judged, told) = (report(&JUDGE), report(&BY_REFERENCE));
        assert!(judged == told, "{:x} and {:x}", judged.0, told.0);
        assert_eq!(told.0 as u8, status);
    }
}
