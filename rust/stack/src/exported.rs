//! The exported functions by their C signatures, each measured against one that does nothing with the same arguments.

use crate::asked::{Asked, Pair};
use crate::blocks::Blocks;
use crate::by_reference::{self, umbristal_cobol_call, umbristal_cobol_call_sound};
use crate::by_reference::{umbristal_cobol_check, umbristal_cobol_make};
use crate::by_reference::{
    umbristal_cobol_report_joined, umbristal_cobol_report_nested, umbristal_cobol_report_plain,
};
use crate::helpers::{
    self, umbristal_data_length, umbristal_letters, umbristal_list_test, umbristal_table_size,
};
use crate::painted::painted;
use crate::statements::{self, umbristal_dbd_read, umbristal_dbd_write};
use std::hint::black_box;

pub type Check = unsafe extern "C" fn(*const u8, usize) -> u8;
pub type TableCheck = unsafe extern "C" fn(*const u8, usize, *const u8, usize) -> u8;
pub type TableMake = unsafe extern "C" fn(*const u8, usize, *mut u8, usize) -> u8;
#[rustfmt::skip]
pub type Call = unsafe extern "C" fn(
    *const u8, usize, *mut u8, usize, *mut u8, usize, u8, *const u8, usize, *mut u8, usize,
) -> u64;
#[rustfmt::skip]
pub type Report = unsafe extern "C" fn(
    *const u8, usize, *const u8, usize, *const u8, usize, *const u8, usize, *mut u8, usize,
) -> u64;

#[rustfmt::skip]
extern "C" {
    fn umbristal_catalogue_check(_: *const u8, _: usize) -> u8;
    fn umbristal_table_check(_: *const u8, _: usize, _: *const u8, _: usize) -> u8;
    fn umbristal_table_make(_: *const u8, _: usize, _: *mut u8, _: usize) -> u8;
    fn umbristal_call(
        _: *const u8, _: usize, _: *mut u8, _: usize, _: *mut u8, _: usize, _: u8, _: *const u8, _: usize, _: *mut u8,
        _: usize,
    ) -> u64;
    fn umbristal_call_sound(
        _: *const u8, _: usize, _: *mut u8, _: usize, _: *mut u8, _: usize, _: u8, _: *const u8, _: usize, _: *mut u8,
        _: usize,
    ) -> u64;
    fn umbristal_report_nested(
        _: *const u8, _: usize, _: *const u8, _: usize, _: *const u8, _: usize, _: *const u8, _: usize, _: *mut u8,
        _: usize,
    ) -> u64;
    fn umbristal_report_joined(
        _: *const u8, _: usize, _: *const u8, _: usize, _: *const u8, _: usize, _: *const u8, _: usize, _: *mut u8,
        _: usize,
    ) -> u64;
    fn umbristal_report_plain(
        _: *const u8, _: usize, _: *const u8, _: usize, _: *const u8, _: usize, _: *const u8, _: usize, _: *mut u8,
        _: usize,
    ) -> u64;
}

/// A function of the C face.
#[derive(Clone, Copy)]
pub enum Exported {
    CatalogueCheck(Check),
    TableCheck(TableCheck),
    TableMake(TableMake),
    Call(Call),
    /// It is given only what is sound.
    CallSound(Call),
    Report(Report),
    CobolCheck(by_reference::Check),
    CobolMake(by_reference::Make),
    CobolCall(by_reference::Call),
    /// It too is given only what is sound.
    CobolCallSound(by_reference::Call),
    CobolReport(by_reference::Report),
    DbdRead(statements::DbdRead),
    DbdWrite(statements::DbdWrite),
    TableSize(helpers::TableSize),
    DataLength(helpers::DataLength),
    ListTest(helpers::ListTest),
    Letters(helpers::Letters),
}

pub const ALL: [(&str, Exported); 21] = [
    (
        "umbristal_catalogue_check",
        Exported::CatalogueCheck(umbristal_catalogue_check),
    ),
    (
        "umbristal_table_check",
        Exported::TableCheck(umbristal_table_check),
    ),
    (
        "umbristal_table_make",
        Exported::TableMake(umbristal_table_make),
    ),
    ("umbristal_call", Exported::Call(umbristal_call)),
    (
        "umbristal_call_sound",
        Exported::CallSound(umbristal_call_sound),
    ),
    (
        "umbristal_report_nested",
        Exported::Report(umbristal_report_nested),
    ),
    (
        "umbristal_report_joined",
        Exported::Report(umbristal_report_joined),
    ),
    (
        "umbristal_report_plain",
        Exported::Report(umbristal_report_plain),
    ),
    (
        "umbristal_cobol_check",
        Exported::CobolCheck(umbristal_cobol_check),
    ),
    (
        "umbristal_cobol_make",
        Exported::CobolMake(umbristal_cobol_make),
    ),
    (
        "umbristal_cobol_call",
        Exported::CobolCall(umbristal_cobol_call),
    ),
    (
        "umbristal_cobol_call_sound",
        Exported::CobolCallSound(umbristal_cobol_call_sound),
    ),
    (
        "umbristal_cobol_report_nested",
        Exported::CobolReport(umbristal_cobol_report_nested),
    ),
    (
        "umbristal_cobol_report_joined",
        Exported::CobolReport(umbristal_cobol_report_joined),
    ),
    (
        "umbristal_cobol_report_plain",
        Exported::CobolReport(umbristal_cobol_report_plain),
    ),
    ("umbristal_dbd_read", Exported::DbdRead(umbristal_dbd_read)),
    (
        "umbristal_dbd_write",
        Exported::DbdWrite(umbristal_dbd_write),
    ),
    (
        "umbristal_table_size",
        Exported::TableSize(umbristal_table_size),
    ),
    (
        "umbristal_data_length",
        Exported::DataLength(umbristal_data_length),
    ),
    (
        "umbristal_list_test",
        Exported::ListTest(umbristal_list_test),
    ),
    ("umbristal_letters", Exported::Letters(umbristal_letters)),
];

/// Words that a call passes in registers, and bytes of its return address on the stack.
const REGISTERS: usize = if cfg!(target_arch = "x86_64") { 6 } else { 8 };
const RETURN: usize = if cfg!(target_arch = "x86_64") { 8 } else { 0 };

/// How deep the stack goes, and what the function answers.
pub type Measured = (Option<usize>, u64);

/// How deep the stack goes below the caller of a function with so many words of arguments, and what it answers.
/// `work` calls the function that it is given; `idle` has the same signature and needs no stack of its own.
pub fn below<F: Copy>(
    function: F,
    idle: F,
    words: usize,
    work: &mut dyn FnMut(F) -> u64,
) -> Measured {
    let mut result = 0;
    let whole = painted(&mut || result = work(black_box(function)));
    let outside = painted(&mut || {
        black_box(work(black_box(idle)));
    });
    let passed = 8 * words.saturating_sub(REGISTERS);
    let inside = |whole: usize| Some(whole - outside? + RETURN + passed);
    (whole.and_then(inside), result)
}

extern "C" fn idle_check(_: *const u8, _: usize) -> u8 {
    0
}

pub fn checked(check: Check, blocks: &Blocks) -> Measured {
    below(check, idle_check, 2, &mut |function| {
        let cat = &blocks.catalogue;
        // SAFETY: the pointer comes from a slice with its length.
        u64::from(unsafe { function(cat.as_ptr(), cat.len()) })
    })
}

extern "C" fn idle_table_check(_: *const u8, _: usize, _: *const u8, _: usize) -> u8 {
    0
}

pub fn table_checked(check: TableCheck, blocks: &Blocks) -> Measured {
    below(check, idle_table_check, 4, &mut |function| {
        let (cat, tab) = (&blocks.catalogue, &blocks.table);
        // SAFETY: each pointer comes from a slice with its length.
        u64::from(unsafe { function(cat.as_ptr(), cat.len(), tab.as_ptr(), tab.len()) })
    })
}

extern "C" fn idle_table_make(_: *const u8, _: usize, _: *mut u8, _: usize) -> u8 {
    0
}

pub fn table_made(make: TableMake, blocks: &Blocks) -> Measured {
    let mut table = blocks.table.clone();
    below(make, idle_table_make, 4, &mut |function| {
        let (cat, tab) = (&blocks.catalogue, &mut table);
        // SAFETY: each pointer comes from a slice with its length, and the two do not overlap.
        u64::from(unsafe { function(cat.as_ptr(), cat.len(), tab.as_mut_ptr(), tab.len()) })
    })
}

#[rustfmt::skip]
extern "C" fn idle_call(
    _: *const u8, _: usize, _: *mut u8, _: usize, _: *mut u8, _: usize, _: u8, _: *const u8, _: usize, _: *mut u8,
    _: usize,
) -> u64 {
    0
}

pub fn called(call: Call, blocks: &Blocks, asked: &Asked) -> Measured {
    let mut table = blocks.table.clone();
    let mut position = asked.position;
    let mut area = asked.area.clone();
    below(call, idle_call, 11, &mut |function| {
        let (cat, list) = (&blocks.catalogue, &asked.list);
        // SAFETY: each pointer comes from a slice with its length, and no two overlap; what is not checked here is
        // sound, since `blocks` was made so and `positions` are good on it.
        unsafe {
            function(
                cat.as_ptr(),
                cat.len(),
                table.as_mut_ptr(),
                table.len(),
                position.as_mut_ptr(),
                position.len(),
                asked.number,
                list.as_ptr(),
                list.len(),
                area.as_mut_ptr(),
                area.len(),
            )
        }
    })
}

#[rustfmt::skip]
extern "C" fn idle_report(
    _: *const u8, _: usize, _: *const u8, _: usize, _: *const u8, _: usize, _: *const u8, _: usize, _: *mut u8,
    _: usize,
) -> u64 {
    0
}

pub fn reported(report: Report, blocks: &Blocks, pair: &Pair, room: usize) -> Measured {
    let mut out = vec![0; room];
    below(report, idle_report, 10, &mut |function| {
        let (cat, tab, one, two) = (&blocks.catalogue, &blocks.table, &pair.one, &pair.two);
        // SAFETY: each pointer comes from a slice with its length, and the out overlaps none of the others.
        unsafe {
            function(
                cat.as_ptr(),
                cat.len(),
                tab.as_ptr(),
                tab.len(),
                one.as_ptr(),
                one.len(),
                two.as_ptr(),
                two.len(),
                out.as_mut_ptr(),
                out.len(),
            )
        }
    })
}
