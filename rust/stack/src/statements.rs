//! The reader and the writer of DBD statements, on the statements of each table's catalogue.

use crate::blocks::Blocks;
use crate::exported::{below, Measured};

pub type DbdRead = unsafe extern "C" fn(*const u8, usize, *mut u8, usize, *mut u8, usize) -> u64;
pub type DbdWrite = unsafe extern "C" fn(*const u8, usize, *const u8, usize, *mut u8, usize) -> u64;

#[rustfmt::skip]
extern "C" {
    pub fn umbristal_dbd_read(_: *const u8, _: usize, _: *mut u8, _: usize, _: *mut u8, _: usize) -> u64;
    pub fn umbristal_dbd_write(_: *const u8, _: usize, _: *const u8, _: usize, _: *mut u8, _: usize) -> u64;
}

/// A name for each type and field, and for the data base.
fn names(blocks: &Blocks) -> Vec<u8> {
    let mut names = b"HDN\x00\x01".to_vec();
    let counts = &blocks.catalogue[5..8];
    names.extend(counts);
    for number in 0..=counts[0] + counts[1] {
        names.extend(format!("N{number:<7}").bytes());
    }
    names
}

/// The statements of the catalogue; and with a line behind them that is none, that has a name twice, an unknown parent, or too
/// many bytes.
pub fn texts(blocks: &Blocks) -> Vec<Vec<u8>> {
    let mut text = vec![0; 4651];
    let result = linked::dbd_write(&blocks.plain_catalogue(), &names(blocks), &mut text);
    assert_eq!(result as u8, 0, "the writer takes the catalogue");
    text.truncate((result >> 32) as usize);
    let more = [
        "",
        "FIELD NAME=(X,SEQ,U),BYTES=1,START=1,TYPE=P\n",
        "SEGM NAME=N1,PARENT=N1,BYTES=1\n",
        "SEGM NAME=X,PARENT=Y,BYTES=1\n",
        "SEGM NAME=X,PARENT=N1,BYTES=121\n",
    ];
    more.map(|line| [&text[..], line.as_bytes()].concat())
        .to_vec()
}

extern "C" fn idle_read(_: *const u8, _: usize, _: *mut u8, _: usize, _: *mut u8, _: usize) -> u64 {
    0
}

pub fn read(function: DbdRead, text: &[u8], room: usize) -> Measured {
    let (mut cat, mut names) = (vec![0; room], vec![0; room]);
    below(function, idle_read, 6, &mut |function| {
        // SAFETY: each pointer comes from a slice with its length, and no two overlap.
        unsafe {
            function(
                text.as_ptr(),
                text.len(),
                cat.as_mut_ptr(),
                cat.len(),
                names.as_mut_ptr(),
                names.len(),
            )
        }
    })
}

extern "C" fn idle_write(
    _: *const u8,
    _: usize,
    _: *const u8,
    _: usize,
    _: *mut u8,
    _: usize,
) -> u64 {
    0
}

/// The catalogue with its names, without their last byte, and where there is no room.
pub fn write(function: DbdWrite, blocks: &Blocks, short: usize, room: usize) -> Measured {
    let names = names(blocks);
    let names = &names[..names.len() - short];
    let mut text = vec![0; room];
    below(function, idle_write, 6, &mut |function| {
        let cat = &blocks.catalogue;
        // SAFETY: each pointer comes from a slice with its length, and no two overlap.
        unsafe {
            function(
                cat.as_ptr(),
                cat.len(),
                names.as_ptr(),
                names.len(),
                text.as_mut_ptr(),
                text.len(),
            )
        }
    })
}
