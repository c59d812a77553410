//! B1 to B10.

use crate::desk::*;

#[test]
fn b1_the_listing() {
    let expected = "0 1 1 -- 303741\n\
                    1 2 2 -- 313350\n\
                    2 3 3 -- 5031\n\
                    3 2 2 GA 313454\n\
                    4 3 3 -- 5431\n\
                    5 3 3 -- 5032\n\
                    6 4 2 GA 6E\n\
                    7 1 1 GA 303942\n\
                    8 2 2 -- 313450\n\
                    GB\n";
    assert_eq!(judge::listing(&bench_catalogue(), &bench_table()), expected);
}

#[test]
fn b2_get_next_try_with_t() {
    let mut desk = Desk::bench();
    let first = desk.get(GN, b"\x03\x01\x03T");
    assert_eq!(fields(&first), (0, 3, 3, 2, 0));
    assert_eq!(first.area, b"T1\x07\x07\x07\x07\x07");
    assert_eq!(desk.position, block(true, 4, Some(4), false));
    let again = desk.get(GN, b"\x03\x01\x03T");
    assert_eq!(fields(&again), (11, 0, 0, 0, 0));
    assert_eq!(desk.position, block(true, 4, Some(4), false));
}

#[test]
fn b3_get_unique_along_the_position() {
    let mut fresh = Desk::bench();
    assert_eq!(fresh.get(GU, b"\x02\x01\x0214").status, 0);
    assert_eq!(fresh.position, block(true, 3, Some(3), false));
    let mut on_seven = Desk::bench().on(7);
    assert_eq!(on_seven.get(GU, b"\x02\x01\x0214").status, 0);
    assert_eq!(on_seven.position, block(true, 8, Some(8), false));
}

#[test]
fn b4_insert_along_the_position() {
    let mut on_five = Desk::bench().on(5);
    let done = on_five.call(ISRT, b"\x03\x00", b"S3\x00");
    assert_eq!(fields(&done), (0, 3, 3, 2, 0));
    assert_eq!(on_five.position, block(true, 6, None, false));
    assert_eq!(on_five.count(), 10);
    assert_eq!(on_five.cell(6), b"\x03S3\x00");
    let mut on_seven = Desk::bench().on(7);
    assert_eq!(on_seven.call(ISRT, b"\x03\x00", b"S3\x00").status, 0);
    assert_eq!(on_seven.position, block(true, 9, None, false));
}

#[test]
fn b5_insert_with_a_key_that_is_there() {
    let mut desk = Desk::bench();
    let before = desk.table.clone();
    let refused = desk.call(ISRT, b"\x01\x01\x0107\x02\x00", b"14X");
    assert_eq!(fields(&refused), (31, 0, 0, 0, 0));
    assert_eq!(desk.table, before);
}

#[test]
fn b6_insert_a_unit() {
    let mut desk = Desk::bench();
    assert_eq!(desk.call(ISRT, b"\x01\x00", b"08C").status, 0);
    assert_eq!(desk.position, block(true, 7, None, false));
    assert_eq!(desk.cell(7), b"\x0108C");
}

/// GHU to cell 3 from fresh.
fn hold_three(desk: &mut Desk) {
    assert_eq!(desk.get(GHU, b"\x02\x01\x0214").status, 0);
    assert_eq!(desk.position, block(true, 3, Some(3), true));
}

#[test]
fn b7_delete_and_go_on() {
    let mut desk = Desk::bench();
    hold_three(&mut desk);
    let deleted = desk.call(DLET, b"", b"");
    assert_eq!(fields(&deleted), (0, 2, 2, 3, 3));
    assert_eq!(desk.count(), 6);
    assert_eq!(desk.position, block(false, 3, None, false));
    let note = desk.get(GN, b"");
    assert_eq!(fields(&note), (0, 4, 2, 1, 0));
    assert_eq!(desk.position, block(true, 3, Some(3), false));
}

#[test]
fn b8_the_parentage_goes_with_the_run() {
    let mut desk = Desk::bench();
    hold_three(&mut desk);
    assert_eq!(desk.call(DLET, b"", b"").status, 0);
    assert_eq!(desk.get(GNP, b"").status, 12);
}

#[test]
fn b9_replace() {
    let mut desk = Desk::bench();
    hold_three(&mut desk);
    assert_eq!(desk.call(REPL, b"", b"15P").status, 30);
    assert_eq!(desk.position, block(true, 3, Some(3), true));
    assert_eq!(fields(&desk.call(REPL, b"", b"14P")), (0, 2, 2, 3, 0));
    assert_eq!(desk.position, block(true, 3, Some(3), false));
    assert_eq!(desk.cell(3), b"\x0214P");
}

#[test]
fn b10_the_empty_table() {
    let mut desk = Desk::with(bench_catalogue(), table(4, 12, &[]));
    assert_eq!(desk.get(GN, b"").status, 10);
    assert_eq!(judge::listing(&desk.catalogue, &desk.table), "GB\n");
}
