//! The cases to be run besides: borders of rooms, levels and cells.

use crate::desk::*;

#[test]
fn no_cells_at_all() {
    let mut desk = Desk::with(bench_catalogue(), table(4, 0, &[]));
    assert_eq!(desk.call(ISRT, b"\x01\x00", b"08C").status, 32);
    assert_eq!(desk.get(GN, b"").status, 10);
    assert_eq!(desk.get(GU, b"").status, 11);
}

#[test]
fn full_then_delete_then_insert() {
    let mut desk = Desk::bench();
    for unit in [b"10A", b"11A", b"12A"] {
        assert_eq!(desk.call(ISRT, b"\x01\x00", unit).status, 0);
    }
    assert_eq!(desk.count(), 12);
    assert_eq!(desk.call(ISRT, b"\x01\x00", b"13A").status, 32);
    assert_eq!(desk.get(GHU, b"\x01\x01\x0112").status, 0);
    assert_eq!(fields(&desk.call(DLET, b"", b"")), (0, 1, 1, 3, 1));
    assert_eq!(desk.position, block(false, 11, None, false));
    assert_eq!(desk.call(ISRT, b"\x01\x00", b"13A").status, 0);
    assert_eq!(desk.position, block(true, 11, None, false));
}

/// A chain of types, one beneath the other.
fn chain(levels: u8) -> Vec<u8> {
    let types: Vec<[u8; 5]> = (0..levels).map(|parent| [parent, 1, 0, 0, 0]).collect();
    catalogue(&types, &[])
}

#[test]
fn level_fifteen_and_sixteen() {
    assert_eq!(judge::catalogue_check(&chain(15)), 0);
    assert_eq!(judge::catalogue_check(&chain(16)), 20);
    let mut desk = Desk::with(chain(15), table(2, 20, &[]));
    for level in 1..=15 {
        assert_eq!(
            fields(&desk.call(ISRT, &[level, 0], b"x")),
            (0, level, level, 1, 0)
        );
    }
    assert_eq!(desk.position, block(true, 14, None, false));
}

#[test]
fn most_cells_and_one_more() {
    let most = vec![9; 8 + 4096 * 4];
    let made = judge::table_make(&bench_catalogue(), &most);
    assert_eq!(made.status, 0);
    assert_eq!(made.table, table(4, 4096, &[]));
    assert_eq!(judge::table_check(&bench_catalogue(), &made.table), 0);
    let more = vec![9; 8 + 4097 * 4];
    let refused = judge::table_make(&bench_catalogue(), &more);
    assert_eq!((refused.status, refused.table), (21, more));
    let one_more = table(4, 4097, &[]);
    assert_eq!(judge::table_check(&bench_catalogue(), &one_more), 21);
}

#[test]
fn a_full_table_of_most_cells() {
    let catalogue = catalogue(&[[0, 2, 2, 1, 1]], &[]);
    let mut cells = table(3, 4096, &[]);
    for cell in 0..4096 {
        cells[8 + cell * 3] = 1;
        cells[9 + cell * 3] = (cell / 17) as u8;
    }
    cells[6..8].copy_from_slice(&4096u16.to_be_bytes());
    let mut desk = Desk::with(catalogue, cells).on(4095);
    assert_eq!(desk.get(GN, b"").status, 10);
    desk.position = block(false, 4096, None, false);
    assert_eq!(desk.get(GN, b"").status, 10);
    assert_eq!(desk.call(ISRT, b"\x01\x00", &[3, 0]).status, 32);
    desk.position = block(true, 0, None, true);
    assert_eq!(desk.call(DLET, b"", b"").removed, 1);
    assert_eq!(desk.call(ISRT, b"\x01\x00", &[3, 0]).status, 0);
    assert_eq!(desk.position, block(true, 67, None, false));
}
