//! The exported functions for COBOL, which take each block by its address alone.

use crate::asked::{Asked, Pair};
use crate::blocks::Blocks;
use crate::exported::{below, Measured};

type Block = *const u8;
type MutBlock = *mut u8;

pub type Check = unsafe extern "C" fn(Block, Block, Block, MutBlock);
pub type Make = unsafe extern "C" fn(Block, Block, MutBlock, MutBlock);
pub type Call = unsafe extern "C" fn(Block, Block, MutBlock, MutBlock, Block, MutBlock, MutBlock);
pub type Report = unsafe extern "C" fn(Block, Block, Block, Block, Block, MutBlock, MutBlock);

#[rustfmt::skip]
extern "C" {
    pub fn umbristal_cobol_check(_: Block, _: Block, _: Block, _: MutBlock);
    pub fn umbristal_cobol_make(_: Block, _: Block, _: MutBlock, _: MutBlock);
    pub fn umbristal_cobol_call(
        _: Block, _: Block, _: MutBlock, _: MutBlock, _: Block, _: MutBlock, _: MutBlock,
    );
    pub fn umbristal_cobol_call_sound(
        _: Block, _: Block, _: MutBlock, _: MutBlock, _: Block, _: MutBlock, _: MutBlock,
    );
    pub fn umbristal_cobol_report_nested(
        _: Block, _: Block, _: Block, _: Block, _: Block, _: MutBlock, _: MutBlock,
    );
    pub fn umbristal_cobol_report_joined(
        _: Block, _: Block, _: Block, _: Block, _: Block, _: MutBlock, _: MutBlock,
    );
    pub fn umbristal_cobol_report_plain(
        _: Block, _: Block, _: Block, _: Block, _: Block, _: MutBlock, _: MutBlock,
    );
}

/// The sizes that the functions take.
const CATALOGUE: usize = 521;
const TABLE: usize = 495_625;
const LIST: usize = 1846;
const AREA: usize = 120;
const OUT: usize = 8192;

/// A block of this size with these bytes in its front.
fn block(size: usize, front: &[u8]) -> Vec<u8> {
    let mut block = vec![0; size];
    block[..front.len()].copy_from_slice(front);
    block
}

/// The number of a call, and the lengths of catalogue, table, the lists, and area or out.
fn ask(number: u8, lengths: [usize; 5]) -> [u8; 21] {
    let mut ask = [number; 21];
    for (place, length) in ask[1..].chunks_exact_mut(4).zip(lengths) {
        place.copy_from_slice(&(length as u32).to_be_bytes());
    }
    ask
}

/// Of what is told the status, which an idle function leaves as it was.
fn status(told: [u8; 8]) -> u64 {
    u64::from(told[2])
}

extern "C" fn idle_check(_: Block, _: Block, _: Block, _: MutBlock) {}

pub fn checked(check: Check, blocks: &Blocks) -> Measured {
    let ask = ask(0, [blocks.catalogue.len(), blocks.table.len(), 0, 0, 0]);
    let cat = block(CATALOGUE, &blocks.catalogue);
    let tab = block(TABLE, &blocks.table);
    below(check, idle_check, 4, &mut |function| {
        let mut told = [0; 8];
        // SAFETY: each block has the size that the function takes.
        unsafe { function(ask.as_ptr(), cat.as_ptr(), tab.as_ptr(), told.as_mut_ptr()) };
        status(told)
    })
}

extern "C" fn idle_make(_: Block, _: Block, _: MutBlock, _: MutBlock) {}

pub fn made(make: Make, blocks: &Blocks) -> Measured {
    let ask = ask(0, [blocks.catalogue.len(), blocks.table.len(), 0, 0, 0]);
    let cat = block(CATALOGUE, &blocks.catalogue);
    let mut tab = block(TABLE, &blocks.table);
    below(make, idle_make, 4, &mut |function| {
        let (tab, mut told) = (tab.as_mut_ptr(), [0; 8]);
        // SAFETY: each block has the size that the function takes, and no two overlap.
        unsafe { function(ask.as_ptr(), cat.as_ptr(), tab, told.as_mut_ptr()) };
        status(told)
    })
}

#[rustfmt::skip]
extern "C" fn idle_call(
    _: Block, _: Block, _: MutBlock, _: MutBlock, _: Block, _: MutBlock, _: MutBlock,
) {}

pub fn called(call: Call, blocks: &Blocks, asked: &Asked) -> Measured {
    let (catalogue, table) = (&blocks.catalogue, &blocks.table);
    let lengths = [
        catalogue.len(),
        table.len(),
        asked.list.len(),
        0,
        asked.area.len(),
    ];
    let ask = ask(asked.number, lengths);
    let (cat, mut tab) = (block(CATALOGUE, catalogue), block(TABLE, table));
    let (list, mut area) = (block(LIST, &asked.list), block(AREA, &asked.area));
    let mut position = asked.position;
    below(call, idle_call, 7, &mut |function| {
        let mut told = [0; 8];
        // SAFETY: each block has the size that the function takes, and no two overlap; what is not checked here is sound,
        // since `blocks` was made so and `positions` are good on it.
        unsafe {
            function(
                ask.as_ptr(),
                cat.as_ptr(),
                tab.as_mut_ptr(),
                position.as_mut_ptr(),
                list.as_ptr(),
                area.as_mut_ptr(),
                told.as_mut_ptr(),
            );
        }
        status(told)
    })
}

#[rustfmt::skip]
extern "C" fn idle_report(
    _: Block, _: Block, _: Block, _: Block, _: Block, _: MutBlock, _: MutBlock,
) {}

pub fn reported(report: Report, blocks: &Blocks, pair: &Pair, room: usize) -> Measured {
    let (catalogue, table) = (&blocks.catalogue, &blocks.table);
    let lengths = [
        catalogue.len(),
        table.len(),
        pair.one.len(),
        pair.two.len(),
        room,
    ];
    let ask = ask(0, lengths);
    let (cat, tab) = (block(CATALOGUE, catalogue), block(TABLE, table));
    let (one, two) = (block(LIST, &pair.one), block(LIST, &pair.two));
    let mut out = block(OUT, &[]);
    below(report, idle_report, 7, &mut |function| {
        let mut told = [0; 8];
        // SAFETY: each block has the size that the function takes, and the out overlaps none of the others.
        unsafe {
            function(
                ask.as_ptr(),
                cat.as_ptr(),
                tab.as_ptr(),
                one.as_ptr(),
                two.as_ptr(),
                out.as_mut_ptr(),
                told.as_mut_ptr(),
            );
        }
        status(told)
    })
}
