//! Points that are easy to read wrongly.

use crate::desk::*;

#[test]
fn no_second_try_behind_what_was_kept() {
    // Step 13 is under unit 07 only; the position keeps unit 09.
    assert_eq!(Desk::bench().on(7).get(GU, b"\x02\x01\x0213").status, 11);
}

#[test]
fn a_named_level_is_not_kept() {
    // The unit is named, though without a test, so the search begins at the first one.
    let mut desk = Desk::bench().on(8);
    assert_eq!(desk.get(GU, b"\x01\x00\x02\x01\x0214").status, 0);
    assert_eq!(desk.position, block(true, 3, Some(3), false));
}

#[test]
fn a_named_level_above_an_implied_one_is_kept_with_it() {
    // On try 4: unit 07 named, step implied, try named. Kept: unit and step 14.
    let mut desk = Desk::bench().on(4);
    assert_eq!(desk.get(GU, b"\x01\x01\x0107\x03\x01\x03P").status, 0);
    assert_eq!(desk.position, block(true, 5, Some(5), false));
    // If the named unit does not hold, nothing is kept.
    let mut other = Desk::bench().on(4);
    assert_eq!(other.get(GU, b"\x01\x03\x0107\x03\x00").status, 11);
}

#[test]
fn in_a_gap_nothing_is_kept() {
    let mut desk = Desk::bench();
    desk.position = block(false, 8, Some(7), false);
    assert_eq!(desk.call(ISRT, b"\x03\x00", b"S3\x00").status, 0);
    assert_eq!(desk.position, block(true, 3, None, false));
}

#[test]
fn the_empty_list_finds_the_first() {
    let mut desk = Desk::bench().on(8);
    let first = desk.get(GHU, b"");
    assert_eq!(fields(&first), (0, 1, 1, 3, 0));
    assert_eq!(desk.position, block(true, 0, Some(0), true));
}

#[test]
fn next_within_parent_stays_within() {
    let mut desk = Desk::bench();
    assert_eq!(desk.get(GU, b"\x02\x01\x0214").status, 0);
    assert_eq!(desk.get(GNP, b"").status, 0);
    assert_eq!(desk.get(GHNP, b"").status, 0);
    assert_eq!(desk.position, block(true, 5, Some(3), true));
    assert_eq!(desk.get(GNP, b"").status, 11);
    assert_eq!(desk.position, block(true, 5, Some(3), false));
}

#[test]
fn next_within_parent_looks_above_the_parent() {
    let mut desk = Desk::bench();
    desk.position = block(true, 3, Some(3), false);
    assert_eq!(desk.get(GNP, b"\x01\x01\x0109\x03\x00").status, 11);
    assert_eq!(desk.get(GNP, b"\x01\x01\x0107\x03\x00").status, 0);
}

#[test]
fn crossings() {
    let mut desk = Desk::bench();
    desk.position = block(true, 5, Some(0), false);
    assert_eq!(desk.get(GNP, b"").status, 1);
    // From step to note: the same level, another type. The table needs a step without tries.
    let cells: [&[u8]; 3] = [b"\x0107A", b"\x0213P", b"\x04n"];
    let mut flat = Desk::with(bench_catalogue(), table(4, 4, &cells)).on(1);
    assert_eq!(flat.get(GHN, b"").status, 2);
    // With a list, or from a gap, blank.
    let mut listed = Desk::bench().on(5);
    assert_eq!(listed.get(GN, b"\x04\x00").status, 0);
    let mut gap = Desk::bench();
    gap.position = block(false, 6, None, false);
    assert_eq!(gap.get(GN, b"").status, 0);
}

#[test]
fn a_hold_does_not_survive_a_miss() {
    let mut desk = Desk::bench();
    desk.position = block(true, 8, Some(7), true);
    assert_eq!(desk.get(GU, b"\x02\x01\x0299").status, 11);
    assert_eq!(desk.position, block(true, 8, Some(7), false));
    assert_eq!(desk.call(DLET, b"", b"").status, 29);
    desk.position = block(true, 8, Some(7), true);
    assert_eq!(desk.get(GHN, b"").status, 10);
    assert_eq!(desk.position, block(false, 0, None, false));
    assert_eq!(desk.call(DLET, b"", b"").status, 29);
}

#[test]
fn multiple_keys_go_after_their_equals() {
    let catalogue = catalogue(&[[0, 2, 2, 1, 1], [1, 2, 0, 0, 0]], &[]);
    let cells: [&[u8]; 4] = [&[1, 5, 1], &[2, 0, 0], &[1, 5, 2], &[1, 6, 3]];
    let mut desk = Desk::with(catalogue, table(3, 8, &cells));
    assert_eq!(desk.call(ISRT, &[1, 0], &[5, 9]).status, 0);
    assert_eq!(desk.position, block(true, 3, None, false));
    // Unkeyed, last among its twins: behind the first child of the first root.
    assert_eq!(desk.call(ISRT, &[1, 0], &[4, 4]).status, 0);
    assert_eq!(desk.call(ISRT, &[2, 0], &[8, 8]).status, 0);
    assert_eq!(desk.position, block(true, 1, None, false));
    assert_eq!(desk.cell(0), [1, 4, 4]);
}

#[test]
fn parentage_after_insert() {
    let mut desk = Desk::bench();
    desk.position = block(true, 3, Some(3), false);
    assert_eq!(desk.call(ISRT, b"\x03\x00", b"S3\x00").status, 0);
    assert_eq!(desk.position, block(true, 6, Some(3), false));
    // A unit is beneath nothing.
    assert_eq!(desk.call(ISRT, b"\x01\x00", b"06A").status, 0);
    assert_eq!(desk.position, block(true, 0, None, false));
}

#[test]
fn parentage_after_delete() {
    let mut desk = Desk::bench();
    desk.position = block(true, 5, Some(3), true);
    assert_eq!(fields(&desk.call(DLET, b"", b"")), (0, 3, 3, 2, 1));
    assert_eq!(desk.position, block(false, 5, Some(3), false));
    assert_eq!(desk.get(GNP, b"").status, 11);
}

#[test]
fn insert_between_groups() {
    // Unit 09 has a step only; a note goes last, a try under the step goes before the note.
    let mut desk = Desk::bench();
    assert_eq!(desk.call(ISRT, b"\x01\x01\x0109\x04\x00", b"m  ").status, 0);
    assert_eq!(desk.position, block(true, 9, None, false));
    assert_eq!(desk.call(ISRT, b"\x02\x00", b"10Q").status, 0);
    assert_eq!(desk.position, block(true, 8, None, false));
}

#[test]
fn operators() {
    let first = |operator: u8| {
        let mut desk = Desk::bench();
        let status = desk.get(GN, &[3, operator, 3, b'P']).status;
        (status == 0).then(|| desk.position[2])
    };
    assert_eq!(first(1), Some(2));
    assert_eq!(first(2), Some(4));
    assert_eq!(first(3), None);
    assert_eq!(first(4), Some(2));
    assert_eq!(first(5), Some(4));
    assert_eq!(first(6), Some(2));
}
