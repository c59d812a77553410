//! What only reads: through a shared reference, and the same as get-next shows.

use crate::bench::*;
use std::thread;
use umbristal::{Argument, CellNumber, Op, OwnedSegment, Segment, Status, Store, TypeCode};

fn cells<'s>(segments: impl Iterator<Item = Segment<'s>>) -> Vec<u16> {
    segments.map(|segment| segment.cell.0).collect()
}

#[test]
fn from_two_places_at_once() {
    let store = store();
    let (every, tries) = (&[][..], [Argument::all(TRY)]);
    let both = store
        .segments(every)
        .unwrap()
        .zip(store.segments(&tries).unwrap());
    assert_eq!(
        both.map(|(one, other)| (one.cell.0, other.cell.0))
            .collect::<Vec<_>>(),
        [(0, 2), (1, 4), (2, 5)]
    );
    thread::scope(|scope| {
        let threads = [(); 4].map(|()| {
            scope.spawn(|| {
                let shown = store.report_nested(&[unit(b"07")], &tries).unwrap();
                (cells(store.segments(every).unwrap()), shown)
            })
        });
        for thread in threads {
            let (every, shown) = thread.join().unwrap();
            assert_eq!(every, (0..9).collect::<Vec<_>>());
            assert_eq!(shown, [2, 4, 5].map(CellNumber));
        }
    });
}

#[test]
fn the_position_stays() {
    let mut store = store();
    assert!(store.get_hold_unique(&[step(b"14")]).found().is_ok());
    let place = store.place();
    assert_eq!(store.segments(&[Argument::all(NOTE)]).unwrap().len(), 1);
    assert_eq!(store.segments(&[unit(b"08")]).unwrap().len(), 0);
    assert!(store.segments(&[unit(b"8")]).is_err());
    assert_eq!(store.place(), place);
    assert_eq!(store.delete().unwrap().removed, 3);
}

/// A loop of get-next from the start, on a copy.
fn by_get_next(store: &Store, list: &[Argument]) -> Result<Vec<OwnedSegment>, Status> {
    let mut copy = store.clone();
    copy.rewind();
    let mut found = Vec::new();
    loop {
        let got = copy.get_next(list).segment();
        let Some(segment) = got.map_err(|error| error.status())? else {
            return Ok(found);
        };
        let mut segment = segment.to_owned();
        segment.status = Status::Blank;
        found.push(segment);
    }
}

/// Lists of one argument and of two, right and faulty ones, each with and without tests.
fn lists<'v>(key: &'v [u8], verdict: &'v [u8]) -> Vec<Vec<Argument<'v>>> {
    let mut arguments: Vec<Argument> = (0..=5).map(|code| Argument::all(TypeCode(code))).collect();
    for op in [Op::Eq, Op::Ne, Op::Lt, Op::Le, Op::Gt, Op::Ge] {
        arguments.push(Argument::test(UNIT, UNIT_KEY, op, key));
        arguments.push(Argument::test(STEP, STEP_KEY, op, key));
        arguments.push(Argument::test(TRY, VERDICT, op, verdict));
    }
    // A field of another type, and a value of another length.
    arguments.push(Argument::test(UNIT, STEP_KEY, Op::Eq, key));
    arguments.push(Argument::test(UNIT, UNIT_KEY, Op::Eq, verdict));
    let mut lists = vec![vec![]];
    lists.extend(arguments.iter().map(|&one| vec![one]));
    for &upper in &arguments {
        lists.extend(arguments.iter().map(|&lower| vec![upper, lower]));
    }
    let three = [Argument::all(UNIT), step(key), Argument::all(TRY)];
    lists.push(three.to_vec());
    lists
}

/// Asserts that a list shows the same read and got.
pub fn is_read_as_got(store: &Store, list: &[Argument]) {
    let read = store.segments(list).map_err(|error| error.status());
    let read = read.map(|segments| segments.map(|segment| segment.to_owned()).collect());
    assert_eq!(read, by_get_next(store, list), "{list:?}");
}

#[test]
fn the_same_as_get_next() {
    let store = store();
    for (key, verdict) in [(b"07", b"P"), (b"14", b"T"), (b"08", b"Q")] {
        for list in lists(key, verdict) {
            is_read_as_got(&store, &list);
        }
    }
}
