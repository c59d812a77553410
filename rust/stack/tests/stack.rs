//! "The bench controller gives us 2 KB of stack": every exported function stays within that, from its caller's frame down,
//! on x86-64. On another processor the depths are told and not bound.

use face::status;
use stack::blocks::NAMES;
use stack::Depth;
use std::collections::BTreeSet;
use std::io::Write;

const BOUND: usize = 2048;

#[test]
fn every_exported_function_stays_within_two_kilobytes() {
    for depth in stack::depths() {
        assert_eq!(depth.statuses, ends(&depth), "{}", depth.function);
        if cfg!(target_arch = "x86_64") {
            for (table, bytes) in NAMES.iter().zip(depth.bytes) {
                let within = bytes.is_some_and(|bytes| bytes <= BOUND);
                assert!(within, "{} on {table}: {bytes:?}", depth.function);
            }
        } else {
            tell(&depth);
        }
    }
}

/// One line for a function, past the test's own output, which is shown only where it fails.
fn tell(depth: &Depth) {
    let deepest = depth.bytes.iter().max().expect("there are tables");
    let line = format!("{}: {deepest:?} bytes of stack here", depth.function);
    writeln!(std::io::stderr(), "{line}").expect("standard error can be written");
}

/// What was measured came to every end that the function has, so that no refusal and no search is left out. A table as long
/// as these has room for some number of cells, and the maker refuses none. A helper has an answer or none.
fn ends(depth: &Depth) -> BTreeSet<u8> {
    use status::{AB, AC, BLANK, CX, PX, TX};
    let all = status::ALL.iter().map(|(_, number)| *number);
    match depth.function {
        "umbristal_catalogue_check" | "umbristal_table_make" | "umbristal_cobol_make" => {
            BTreeSet::from([BLANK, CX])
        }
        "umbristal_table_check" | "umbristal_cobol_check" => BTreeSet::from([BLANK, CX, TX]),
        "umbristal_call" | "umbristal_cobol_call" => all.collect(),
        "umbristal_call_sound" | "umbristal_cobol_call_sound" => {
            all.filter(|number| !(CX..=PX).contains(number)).collect()
        }
        "umbristal_dbd_read" => BTreeSet::from([BLANK, 1, 2, 3, CX, AB]),
        "umbristal_dbd_write" => BTreeSet::from([BLANK, CX, AB]),
        "umbristal_table_size"
        | "umbristal_data_length"
        | "umbristal_list_test"
        | "umbristal_letters" => BTreeSet::from([0, 1]),
        _ => BTreeSet::from([BLANK, CX, TX, AC, AB]),
    }
}
