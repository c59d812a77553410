//! Each refusal in its place: a call that has two things wrong answers the earlier one.

use crate::desk::*;

/// What a call is lent, so that one thing after the other can be put right.
#[derive(Clone)]
struct Lent {
    catalogue: Vec<u8>,
    table: Vec<u8>,
    position: Vec<u8>,
    number: u8,
    list: Vec<u8>,
    area: Vec<u8>,
}

impl Lent {
    /// The status; and nothing may have changed where it is 20 or above.
    fn status(&self) -> u8 {
        let outcome = judge::call(
            &self.catalogue,
            &self.table,
            &self.position,
            self.number,
            &self.list,
            &self.area,
        );
        if outcome.status >= 20 {
            assert_eq!(outcome.table, self.table);
            assert_eq!(outcome.position, self.position);
            assert_eq!(outcome.area, self.area);
        }
        if outcome.status >= 10 {
            assert_eq!(fields(&outcome), (outcome.status, 0, 0, 0, 0));
        }
        outcome.status
    }
}

/// Everything wrong at once.
fn all_wrong() -> Lent {
    Lent {
        catalogue: vec![],
        table: vec![],
        position: vec![],
        number: 0,
        list: vec![9],
        area: vec![],
    }
}

#[test]
fn insert_from_first_to_last() {
    let mut lent = all_wrong();
    assert_eq!(lent.status(), 20);
    lent.catalogue = bench_catalogue();
    assert_eq!(lent.status(), 21);
    lent.table = table(4, 9, &BENCH_CELLS);
    assert_eq!(lent.status(), 22);
    lent.position = block(true, 0, Some(0), true);
    assert_eq!(lent.status(), 23);
    lent.number = ISRT;
    assert_eq!(lent.status(), 24);
    lent.list = b"\x01\x07".to_vec();
    assert_eq!(lent.status(), 25);
    lent.list = b"\x01\x01\x02".to_vec();
    assert_eq!(lent.status(), 26);
    lent.list = b"".to_vec();
    assert_eq!(lent.status(), 27);
    lent.list = b"\x01\x01\x0199\x02\x01\x0214".to_vec();
    assert_eq!(lent.status(), 25);
    lent.list = b"\x01\x01\x0199\x02\x00".to_vec();
    assert_eq!(lent.status(), 28);
    lent.area = b"14X".to_vec();
    assert_eq!(lent.status(), 11);
    lent.list = b"\x01\x01\x0107\x02\x00".to_vec();
    assert_eq!(lent.status(), 31);
    lent.area = b"15X".to_vec();
    assert_eq!(lent.status(), 32);
    lent.table = bench_table();
    assert_eq!(lent.status(), 0);
}

#[test]
fn replace_and_delete_from_the_list_on() {
    let mut lent = Lent {
        catalogue: bench_catalogue(),
        table: bench_table(),
        position: block(true, 3, Some(0), false),
        number: REPL,
        list: b"\x01\x00\x01\x00".to_vec(),
        area: vec![],
    };
    assert_eq!(lent.status(), 24);
    lent.list = b"\x01".to_vec();
    assert_eq!(lent.status(), 25);
    lent.list = b"\x01\x01\x03".to_vec();
    assert_eq!(lent.status(), 26);
    lent.list = b"\x01\x00".to_vec();
    assert_eq!(lent.status(), 25);
    lent.list = b"".to_vec();
    assert_eq!(lent.status(), 28);
    let mut delete = Lent {
        number: DLET,
        ..lent.clone()
    };
    assert_eq!(delete.status(), 29);
    delete.position = block(true, 3, Some(0), true);
    assert_eq!(delete.status(), 0);
    delete.list = b"\x01\x00".to_vec();
    assert_eq!(delete.status(), 25);
    lent.area = b"99X".to_vec();
    assert_eq!(lent.status(), 29);
    lent.position = block(true, 3, Some(0), true);
    assert_eq!(lent.status(), 30);
    lent.area = b"14X".to_vec();
    assert_eq!(lent.status(), 0);
}

#[test]
fn gets_from_the_area_on() {
    for number in [GNP, GHNP] {
        let mut lent = Lent {
            catalogue: bench_catalogue(),
            table: bench_table(),
            position: block(true, 8, None, true),
            number,
            list: b"".to_vec(),
            area: vec![7; 2],
        };
        assert_eq!(lent.status(), 28);
        lent.area = vec![7; 3];
        assert_eq!(lent.status(), 12);
        lent.position = block(true, 8, Some(7), true);
        assert_eq!(lent.status(), 11);
    }
    for (number, at_end) in [(GU, 0), (GN, 10), (GHU, 0), (GHN, 10)] {
        let lent = Lent {
            catalogue: bench_catalogue(),
            table: bench_table(),
            position: block(true, 8, None, true),
            number,
            list: b"".to_vec(),
            area: vec![7; 3],
        };
        assert_eq!(lent.status(), at_end);
        let with_list = Lent {
            list: b"\x04\x00".to_vec(),
            ..lent
        };
        assert_eq!(with_list.status(), 11);
    }
}

#[test]
fn call_numbers() {
    for number in [0, 10, 11, 12, 255] {
        let lent = Lent {
            catalogue: bench_catalogue(),
            table: bench_table(),
            position: block(false, 0, None, false),
            number,
            list: b"".to_vec(),
            area: vec![7; 3],
        };
        assert_eq!(lent.status(), 23);
    }
}

/// The status of a GN from fresh with that list.
fn list_status(list: &[u8]) -> u8 {
    Desk::bench().get(GN, list).status
}

#[test]
fn list_faults() {
    let cases: [(&[u8], u8); 19] = [
        (b"\x00", 24),
        (b"\x05", 24),
        (b"\x01\x00\x01\x00", 24),
        (b"\x02\x00\x01\x00", 24),
        (b"\x03\x00\x04\x00", 24),
        (b"\x01", 25),
        (b"\x01\x07", 25),
        (b"\x01\xFF", 25),
        (b"\x01\x01", 25),
        (b"\x01\x01\x00", 26),
        (b"\x01\x01\x05", 26),
        (b"\x01\x01\x02", 26),
        (b"\x01\x01\x01", 25),
        (b"\x01\x01\x010", 25),
        (b"\x01\x01\x0107", 0),
        (b"\x01\x01\x0107\x01", 24),
        (b"\x01\x01\x0107\x02", 25),
        (b"\x01\x01\x0107\x04\x00", 0),
        (b"\x01\x08\x09", 25),
    ];
    for (list, status) in cases {
        assert_eq!(list_status(list), status, "{list:x?}");
    }
}

#[test]
fn bad_positions() {
    let good = [
        block(false, 0, None, false),
        block(false, 9, None, false),
        block(true, 8, None, true),
        block(true, 4, Some(4), false),
        block(true, 4, Some(3), true),
        block(true, 4, Some(0), false),
        block(false, 4, Some(3), false),
        block(false, 6, Some(3), false),
        block(false, 7, Some(0), false),
        block(false, 9, Some(8), false),
        block(false, 9, Some(7), false),
    ];
    let mut bad = vec![
        block(false, 10, None, false),
        block(true, 9, None, false),
        block(true, 65535, None, false),
        block(false, 3, None, true),
        block(true, 4, Some(5), false),
        block(true, 4, Some(1), false),
        block(true, 4, Some(2), false),
        block(false, 3, Some(3), false),
        block(false, 7, Some(3), false),
        block(false, 8, Some(0), false),
        block(false, 9, Some(0), false),
        block(false, 9, Some(9), false),
        vec![],
        vec![0; 7],
        vec![0; 9],
    ];
    for (byte, value) in [(0, 2), (3, 2), (4, 1), (5, 1), (6, 2), (7, 1)] {
        let mut block = block(true, 0, None, false);
        block[byte] = value;
        bad.push(block);
    }
    let status = |position: &Vec<u8>| {
        judge::call(&bench_catalogue(), &bench_table(), position, REPL, b"", b"").status
    };
    for position in &good {
        assert_eq!(status(position), 28, "{position:?}");
    }
    for position in &bad {
        assert_eq!(status(position), 22, "{position:?}");
    }
}

#[test]
fn bad_catalogues() {
    let sound = bench_catalogue();
    assert_eq!(judge::catalogue_check(&sound), 0);
    for length in 0..sound.len() {
        assert_eq!(judge::catalogue_check(&sound[..length]), 20);
    }
    assert_eq!(judge::catalogue_check(&[&sound[..], &[0]].concat()), 20);
    let edits = [
        (0, 0),
        (1, 0),
        (2, b'T'),
        (3, 1),
        (4, 0),
        (4, 2),
        (5, 0),
        (5, 5),
        (6, 3),
        (7, 1),
        (8, 1),
        (9, 0),
        (9, 121),
        (9, 1),
        (10, 0),
        (10, 3),
        (11, 0),
        (11, 3),
        (11, 255),
        (12, 0),
        (12, 255),
        (13, 1),
        (14, 1),
        (15, 2),
        (16, 0),
        (16, 2),
        (27, 1),
        (28, 1),
        (32, 4),
        (32, 5),
        (40, 0),
        (40, 5),
        (41, 0),
        (41, 3),
        (42, 0),
        (42, 4),
        (43, 2),
    ];
    for (byte, value) in edits {
        let mut block = sound.clone();
        block[byte] = value;
        assert_eq!(judge::catalogue_check(&block), 20, "byte {byte} = {value}");
    }
}

#[test]
fn bad_tables() {
    let sound = bench_table();
    let status = |block: &[u8]| judge::table_check(&bench_catalogue(), block);
    assert_eq!(status(&sound), 0);
    for length in 0..sound.len() {
        // Whole free cells less are another M, and sound.
        let expected = if length >= 44 && length % 4 == 0 {
            0
        } else {
            21
        };
        assert_eq!(status(&sound[..length]), expected, "length {length}");
    }
    let edits = [
        (0, 0),
        (2, b'C'),
        (3, 1),
        (4, 0),
        (5, 5),
        (5, 3),
        (6, 1),
        (7, 8),
        (7, 10),
        (7, 13),
        (8, 2),
        (8, 0),
        (8, 5),
        (12, 3),
        (12, 4),
        (16, 2),
        (19, 1),
        (20, 3),
        (21, 0x30),
        (34, 1),
        (37, 0x2F),
        (36, 4),
        (44, 1),
        (55, 1),
    ];
    for (byte, value) in edits {
        let mut block = sound.clone();
        block[byte] = value;
        assert_eq!(status(&block), 21, "byte {byte} = {value}");
    }
    assert_eq!(judge::table_check(&[], &sound), 20);
}

#[test]
fn key_order_of_twins() {
    let sound = |kind: u8, keys: &[u8]| {
        let catalogue = catalogue(&[[0, 1, kind, kind.min(1), kind.min(1)]], &[]);
        let cells: Vec<[u8; 2]> = keys.iter().map(|&key| [1, key]).collect();
        let cells: Vec<&[u8]> = cells.iter().map(|cell| &cell[..]).collect();
        judge::table_check(&catalogue, &table(2, cells.len(), &cells)) == 0
    };
    assert!(sound(0, &[3, 1, 2, 2]));
    assert!(sound(1, &[1, 2, 0x80, 0xFF]));
    assert!(!sound(1, &[1, 2, 2]));
    assert!(!sound(1, &[0x80, 0x7F]));
    assert!(sound(2, &[1, 2, 2, 0x80]));
    assert!(!sound(2, &[1, 2, 1]));
}

#[test]
fn the_maker() {
    let catalogue = bench_catalogue();
    for length in 0..40 {
        let slice = vec![7; length];
        let made = judge::table_make(&catalogue, &slice);
        if length >= 8 && length % 4 == 0 {
            assert_eq!(made.table, table(4, (length - 8) / 4, &[]));
            assert_eq!(made.status, 0);
        } else {
            assert_eq!((made.status, made.table), (21, slice));
        }
    }
    let made = judge::table_make(&catalogue[1..], &[7; 8]);
    assert_eq!((made.status, made.table), (20, vec![7; 8]));
}

#[test]
fn the_listing_refuses() {
    let (catalogue, table) = (bench_catalogue(), bench_table());
    assert_eq!(judge::listing(&[], &table), "CX\n");
    assert_eq!(judge::listing(&catalogue, &[]), "TX\n");
    assert_eq!(judge::listing(&[], &[0; 70_000]), "CX\n");
    assert_eq!(judge::listing(&catalogue, &[0; 70_000]), "TX\n");
    // A sound table that is longer than the program takes: C = 17, M = 4,096.
    let wide = crate::desk::catalogue(&[[0, 16, 0, 0, 0]], &[]);
    let long = crate::desk::table(17, 4096, &[]);
    assert_eq!(judge::table_check(&wide, &long), 0);
    assert_eq!(judge::listing(&wide, &long), "TX\n");
}
