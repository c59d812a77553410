//! Of the helpers those that call others or read most.

use crate::blocks::{Blocks, DATA};
use crate::exported::{below, Measured};

pub type TableSize = unsafe extern "C" fn(*const u8, usize, usize) -> usize;
pub type DataLength = unsafe extern "C" fn(*const u8, usize, *const u8, usize, usize) -> u8;
#[rustfmt::skip]
pub type ListTest = unsafe extern "C" fn(
    *const u8, usize, *mut u8, usize, u8, u8, u8, *const u8, usize,
) -> usize;
pub type Letters = unsafe extern "C" fn(u8, *mut u8);

#[rustfmt::skip]
extern "C" {
    pub fn umbristal_table_size(_: *const u8, _: usize, _: usize) -> usize;
    pub fn umbristal_data_length(_: *const u8, _: usize, _: *const u8, _: usize, _: usize) -> u8;
    pub fn umbristal_list_test(
        _: *const u8, _: usize, _: *mut u8, _: usize, _: u8, _: u8, _: u8, _: *const u8, _: usize,
    ) -> usize;
    pub fn umbristal_letters(_: u8, _: *mut u8);
}

/// Whether a helper answers anything but 0, as the number that is noted of it.
fn is_some(answer: usize) -> u64 {
    u64::from(answer != 0)
}

extern "C" fn idle_table_size(_: *const u8, _: usize, _: usize) -> usize {
    0
}

pub fn table_sized(size: TableSize, blocks: &Blocks, cells: usize) -> Measured {
    below(size, idle_table_size, 3, &mut |function| {
        let cat = &blocks.catalogue;
        // SAFETY: the pointer comes from a slice with its length.
        is_some(unsafe { function(cat.as_ptr(), cat.len(), cells) })
    })
}

extern "C" fn idle_data_length(_: *const u8, _: usize, _: *const u8, _: usize, _: usize) -> u8 {
    0
}

pub fn data_measured(length: DataLength, blocks: &Blocks, cell: usize) -> Measured {
    below(length, idle_data_length, 5, &mut |function| {
        let (cat, tab) = (&blocks.catalogue, &blocks.table);
        // SAFETY: each pointer comes from a slice with its length.
        is_some(usize::from(unsafe {
            function(cat.as_ptr(), cat.len(), tab.as_ptr(), tab.len(), cell)
        }))
    })
}

#[rustfmt::skip]
extern "C" fn idle_list_test(
    _: *const u8, _: usize, _: *mut u8, _: usize, _: u8, _: u8, _: u8, _: *const u8, _: usize,
) -> usize {
    0
}

/// A test of the first type's first two bytes behind so many bytes of a list; whether there was room.
pub fn list_tested(test: ListTest, blocks: &Blocks, used: usize) -> Measured {
    let mut list = vec![0; 1845];
    let value = [0; DATA / 2];
    below(test, idle_list_test, 9, &mut |function| {
        let cat = &blocks.catalogue;
        // SAFETY: the list has the size that the function takes, the other pointers come from slices with their lengths.
        let after = unsafe {
            function(
                cat.as_ptr(),
                cat.len(),
                list.as_mut_ptr(),
                used,
                1,
                1,
                1,
                value.as_ptr(),
                value.len(),
            )
        };
        u64::from(after > used)
    })
}

extern "C" fn idle_letters(_: u8, _: *mut u8) {}

/// Whether the status has letters of its own.
pub fn lettered(letters: Letters, status: u8) -> Measured {
    below(letters, idle_letters, 2, &mut |function| {
        let mut two = *b"???";
        // SAFETY: there is room for three bytes.
        unsafe { function(status, two.as_mut_ptr()) };
        u64::from(two != *b"??\0")
    })
}
