//! No call allocates: the list is written to room that the store has, and data are lent.

use std::alloc::{GlobalAlloc, Layout, System};
use std::cell::Cell;
use umbristal::{Argument, FieldNumber, Op, Store, TypeCode};

/// The system's allocator, which counts for each thread what it is asked for.
struct Counting;

thread_local! {
    static ASKED: Cell<usize> = const { Cell::new(0) };
}

// SAFETY: everything is handed on to the system's allocator as it came. The counter allocates nothing itself.
unsafe impl GlobalAlloc for Counting {
    unsafe fn alloc(&self, layout: Layout) -> *mut u8 {
        ASKED.set(ASKED.get() + 1);
        // SAFETY: as the caller has promised.
        unsafe { System.alloc(layout) }
    }

    unsafe fn dealloc(&self, block: *mut u8, layout: Layout) {
        // SAFETY: as the caller has promised.
        unsafe { System.dealloc(block, layout) }
    }
}

#[global_allocator]
static ALLOCATOR: Counting = Counting;

/// How often the work allocates.
fn allocations(work: impl FnOnce()) -> usize {
    let before = ASKED.get();
    work();
    ASKED.get() - before
}

fn bench_store() -> Store {
    let catalogue = include_bytes!("../../../crates/lister/data/CAT.HDC");
    let table = include_bytes!("../../../crates/lister/data/TAB.HDT");
    Store::open(catalogue.to_vec(), table.to_vec()).expect("the bench blocks are sound")
}

const UNIT: TypeCode = TypeCode(1);
const STEP: TypeCode = TypeCode(2);
const UNIT_KEY: FieldNumber = FieldNumber(1);
const STEP_KEY: FieldNumber = FieldNumber(2);

/// All nine calls, what they find, what they miss, and what they refuse.
fn calls(store: &mut Store) -> Result<(), umbristal::Error> {
    let unit = Argument::test(UNIT, UNIT_KEY, Op::Eq, b"07");
    let step = Argument::test(STEP, STEP_KEY, Op::Eq, b"14");
    let wrong = Argument::test(STEP, STEP_KEY, Op::Eq, b"1");
    while store.get_next(&[]).segment()?.is_some() {}
    store.get_unique(&[unit, step]).found()?;
    store.get_next_within_parent(&[]).found()?;
    store.get_unique(&[unit]).found()?;
    assert!(store.get_unique(&[unit, wrong]).found().is_err());
    assert!(store.insert(&[Argument::all(STEP)], b"too long").is_err());
    store.insert(&[unit, Argument::all(STEP)], b"15P")?;
    store.get_hold_unique(&[unit, step]).found()?;
    store.replace(b"14P")?;
    store.get_unique(&[unit]).found()?;
    store.get_hold_next_within_parent(&[step]).found()?;
    store.delete()?;
    store.get_hold_next(&[Argument::all(STEP)]).found()?;
    assert!(store.get_next(&[unit]).found().is_err());
    Ok(())
}

#[test]
fn no_call_allocates() {
    assert!(allocations(|| drop(vec![0u8; 1])) > 0, "the counter counts");
    let mut store = bench_store();
    let mut clone = store.clone();
    assert_eq!(allocations(|| calls(&mut store).unwrap()), 0);
    assert_eq!(allocations(|| calls(&mut clone).unwrap()), 0);
    assert_eq!(store.table(), clone.table());
}

/// The longest list that is right: fifteen levels, each with a value of 120 bytes.
#[test]
fn nor_does_the_longest_list() {
    let mut catalogue = b"HDC\x00\x01\x0F\x0F\x00".to_vec();
    for parent in 0..15 {
        catalogue.extend([parent, 120, 0, 0, 0, 0, 0, 0]);
    }
    for code in 1..=15 {
        catalogue.extend([code, 1, 120, 0]);
    }
    let mut store = Store::make(catalogue, 15).unwrap();
    let data = [b'x'; 120];
    let tested = |code| Argument::test(TypeCode(code), FieldNumber(code), Op::Eq, &data);
    let list: Vec<Argument> = (1..=15).map(tested).collect();
    let counted = allocations(|| {
        for level in 0..15 {
            let mut path = [Argument::all(TypeCode(level + 1)); 15];
            path[..level.into()].copy_from_slice(&list[..level.into()]);
            let path = &path[..=level.into()];
            assert_eq!(store.insert(path, &data).unwrap().level, level + 1);
        }
        let found = store.get_unique(&list).found().unwrap();
        assert_eq!((found.cell.0, found.data), (14, &data[..]));
    });
    assert_eq!(counted, 0);
}
