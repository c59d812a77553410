//! The functions of the face by those for COBOL: each slice goes into the front of a block, and comes back from there.

use crate::blocks::{ask, result, status_alone, Block, UNTOLD};
use face::status::{CX, TX};
use linked::cobol;

/// There is none for COBOL: behind a good catalogue it is the table that is bad, since none has 0 bytes.
pub fn catalogue_check(cat: &[u8]) -> u8 {
    match table_check(cat, &[]) {
        TX => 0,
        other => {
            assert_eq!(other, CX);
            other
        }
    }
}

pub fn table_check(cat: &[u8], tab: &[u8]) -> u8 {
    let ask = ask(0, [cat.len(), tab.len(), 0, 0, 0]);
    let (lent_cat, lent_tab, mut told) = (Block::of(cat), Block::of(tab), UNTOLD);
    cobol::cobol_check(&ask, &lent_cat.bytes, &lent_tab.bytes, &mut told);
    lent_cat.stayed(cat);
    lent_tab.stayed(tab);
    status_alone(told)
}

pub fn table_make(cat: &[u8], tab: &mut [u8]) -> u8 {
    let ask = ask(0, [cat.len(), tab.len(), 0, 0, 0]);
    let (lent_cat, mut lent_tab, mut told) = (Block::of(cat), Block::of(tab), UNTOLD);
    cobol::cobol_make(&ask, &lent_cat.bytes, &mut lent_tab.bytes, &mut told);
    lent_cat.stayed(cat);
    lent_tab.back_to(tab);
    status_alone(told)
}

type CobolCall = unsafe fn(
    &[u8; 21],
    &[u8; 521],
    &mut [u8; 495_625],
    &mut [u8; 8],
    &[u8; 1846],
    &mut [u8; 120],
    &mut [u8; 8],
);

/// # Safety
///
/// What the function asks.
unsafe fn called(
    function: CobolCall,
    cat: &[u8],
    tab: &mut [u8],
    pos: &mut [u8],
    number: u8,
    list: &[u8],
    area: &mut [u8],
) -> u64 {
    let ask = ask(number, [cat.len(), tab.len(), list.len(), 0, area.len()]);
    let (lent_cat, mut lent_tab) = (Block::of(cat), Block::of(tab));
    let (lent_list, mut lent_area) = (Block::of(list), Block::of(area));
    // a position of another length is a bad one, for which another bad one stands
    let mut lent_pos: [u8; 8] = (&*pos).try_into().unwrap_or([0xFF; 8]);
    let mut told = UNTOLD;
    // SAFETY: the caller promises it.
    unsafe {
        function(
            &ask,
            &lent_cat.bytes,
            &mut lent_tab.bytes,
            &mut lent_pos,
            &lent_list.bytes,
            &mut lent_area.bytes,
            &mut told,
        );
    }
    lent_cat.stayed(cat);
    lent_list.stayed(list);
    lent_tab.back_to(tab);
    lent_area.back_to(area);
    match pos.len() == lent_pos.len() {
        true => pos.copy_from_slice(&lent_pos),
        false => assert_eq!(lent_pos, [0xFF; 8]),
    }
    result(told)
}

pub fn call(
    cat: &[u8],
    tab: &mut [u8],
    pos: &mut [u8],
    number: u8,
    list: &[u8],
    area: &mut [u8],
) -> u64 {
    // SAFETY: this one asks nothing.
    unsafe { called(cobol::cobol_call, cat, tab, pos, number, list, area) }
}

/// # Safety
///
/// As [`face::Functions::call_sound`] says.
pub unsafe fn call_sound(
    cat: &[u8],
    tab: &mut [u8],
    pos: &mut [u8],
    number: u8,
    list: &[u8],
    area: &mut [u8],
) -> u64 {
    // SAFETY: what the caller promises of the slices holds of the fronts: what is sound has room in the blocks.
    unsafe { called(cobol::cobol_call_sound, cat, tab, pos, number, list, area) }
}

type CobolReport = fn(
    &[u8; 21],
    &[u8; 521],
    &[u8; 495_625],
    &[u8; 1846],
    &[u8; 1846],
    &mut [u8; 8192],
    &mut [u8; 8],
);

fn reported(
    function: CobolReport,
    cat: &[u8],
    tab: &[u8],
    one: &[u8],
    two: &[u8],
    out: &mut [u8],
) -> u64 {
    let ask = ask(0, [cat.len(), tab.len(), one.len(), two.len(), out.len()]);
    let (lent_cat, lent_tab) = (Block::of(cat), Block::of(tab));
    let (lent_one, lent_two) = (Block::of(one), Block::of(two));
    let (mut lent_out, mut told) = (Block::of(out), UNTOLD);
    function(
        &ask,
        &lent_cat.bytes,
        &lent_tab.bytes,
        &lent_one.bytes,
        &lent_two.bytes,
        &mut lent_out.bytes,
        &mut told,
    );
    lent_cat.stayed(cat);
    lent_tab.stayed(tab);
    lent_one.stayed(one);
    lent_two.stayed(two);
    lent_out.back_to(out);
    result(told)
}

pub fn report_nested(cat: &[u8], tab: &[u8], one: &[u8], two: &[u8], out: &mut [u8]) -> u64 {
    reported(cobol::cobol_report_nested, cat, tab, one, two, out)
}

pub fn report_joined(cat: &[u8], tab: &[u8], one: &[u8], two: &[u8], out: &mut [u8]) -> u64 {
    reported(cobol::cobol_report_joined, cat, tab, one, two, out)
}

pub fn report_plain(cat: &[u8], tab: &[u8], one: &[u8], two: &[u8], out: &mut [u8]) -> u64 {
    reported(cobol::cobol_report_plain, cat, tab, one, two, out)
}
