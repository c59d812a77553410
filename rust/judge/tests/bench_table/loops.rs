//! Get-next loops and reports.

use crate::desk::*;
use judge::Way;

#[test]
fn a_get_next_loop_ends() {
    let lists: [&[u8]; 5] = [b"", b"\x01\x00", b"\x02\x00", b"\x03\x02\x03T", b"\x04\x00"];
    for list in lists {
        let mut desk = Desk::bench();
        let calls = (1..).find(|_| desk.get(GN, list).status >= 10).unwrap();
        assert!(calls <= desk.count() + 1);
    }
}

/// Request K2: from a GB, the next n + 1 get-nexts with the empty list show every cell and then GB.
#[test]
fn get_next_after_gb_starts_over() {
    for number in [GN, GHN] {
        let mut desk = Desk::bench().on(8);
        desk.position = block(true, 8, Some(7), true);
        for _ in 0..3 {
            assert_eq!(desk.get(number, b"").status, 10);
            assert_eq!(desk.position, block(false, 0, None, false));
            for cell in 0..9 {
                assert!(desk.get(number, b"").status < 10);
                let hold = number == GHN;
                assert_eq!(desk.position, block(true, cell, Some(cell), hold));
            }
        }
    }
    let mut empty = Desk::with(bench_catalogue(), table(4, 12, &[]));
    for _ in 0..3 {
        assert_eq!(empty.get(GN, b"").status, 10);
        assert_eq!(empty.position, block(false, 0, None, false));
    }
}

/// Request K2: what the calls do after GB, and that GE and GP do not start over.
#[test]
fn after_gb_the_position_is_fresh() {
    let ended = || {
        let mut desk = Desk::bench();
        desk.position = block(true, 8, Some(7), true);
        assert_eq!(desk.get(GN, b"").status, 10);
        desk
    };
    assert_eq!(ended().get(GNP, b"").status, 12);
    assert_eq!(ended().get(GHNP, b"\x03\x00").status, 12);
    assert_eq!(ended().call(REPL, b"", b"14P").status, 29);
    assert_eq!(ended().call(DLET, b"", b"").status, 29);
    let mut unique = ended();
    assert_eq!(unique.get(GU, b"\x02\x01\x0214").status, 0);
    assert_eq!(unique.position, block(true, 3, Some(3), false));
    let mut inserted = ended();
    let list = b"\x02\x01\x0214\x03\x00";
    assert_eq!(inserted.call(ISRT, list, b"S3\x00").status, 0);
    assert_eq!(inserted.position, block(true, 6, None, false));

    let mut desk = Desk::bench();
    desk.position = block(true, 8, Some(7), true);
    assert_eq!(desk.get(GNP, b"").status, 11);
    assert_eq!(desk.position, block(true, 8, Some(7), false));
    desk.position = block(true, 3, None, true);
    assert_eq!(desk.get(GNP, b"").status, 12);
    assert_eq!(desk.position, block(true, 3, None, false));
}

fn report(way: Way, list1: &[u8], list2: &[u8], room: usize) -> (u8, u32, Vec<u8>) {
    let report = judge::report(
        way,
        &bench_catalogue(),
        &bench_table(),
        list1,
        list2,
        &vec![7; room],
    );
    (report.status, report.count, report.out)
}

#[test]
fn the_three_reports_agree() {
    for way in Way::ALL {
        let tries = report(way, b"\x01\x01\x0107", b"\x03\x01\x03P", 5);
        assert_eq!(tries, (0, 2, vec![0, 2, 0, 5, 7]));
        let steps = report(way, b"\x01\x00", b"\x02\x00", 6);
        assert_eq!(steps, (0, 3, vec![0, 1, 0, 3, 0, 8]));
        let none = report(way, b"\x01\x01\x0109", b"\x04\x00", 0);
        assert_eq!(none, (0, 0, vec![]));
    }
}

#[test]
fn reports_refuse() {
    for way in Way::ALL {
        let short = report(way, b"\x01\x00", b"\x02\x00", 5);
        assert_eq!(short, (28, 0, vec![7; 5]));
        let status = |list1: &[u8], list2: &[u8]| report(way, list1, list2, 0).0;
        assert_eq!(status(b"\x02\x00", b"\x01\x00"), 24);
        assert_eq!(status(b"\x02\x00", b"\x02\x00"), 24);
        assert_eq!(status(b"\x01\x00", b"\x02"), 25);
        assert_eq!(status(b"\x01\x09", b"\x02\x00"), 25);
        assert_eq!(status(b"\x01\x00", b"\x02\x01\x03P"), 26);
        // A fault of list 1 comes before an empty list, and that before a fault of list 2.
        assert_eq!(status(b"\x01\x01\x02", b""), 26);
        assert_eq!(status(b"", b"\x02\x09"), 24);
        assert_eq!(status(b"\x02\x00", b""), 24);
        // List 1 is read by itself: what is cut short is not made up for by list 2.
        assert_eq!(status(b"\x01", b"\x00\x02\x00"), 25);
        assert_eq!(status(b"\x01\x01\x010", b"7\x02\x00"), 25);
        let no_table = judge::report(way, &bench_catalogue(), &[], b"", b"", &[]);
        assert_eq!(no_table.status, 21);
        assert_eq!(judge::report(way, &[], &[], b"", b"", &[]).status, 20);
    }
}
