//! DBD statements: a full catalogue, read and written, and a long text of blank lines behind it.

use crate::clock::{Clock, REPETITIONS};
use crate::markdown::{aligned, thousands};
use std::fmt::Write;
use std::hint::black_box;

const MEGABYTE: usize = 1_000_000;

/// 32 segments, two fields to each, one of them the key.
fn full() -> String {
    let mut text = "DBD NAME=FULL\n".to_string();
    for number in 1..=32 {
        let parent = match number {
            1 => "0".to_string(),
            2..=15 => format!("SEGMEN{:02}", number - 1),
            _ => "SEGMEN01".to_string(),
        };
        let lines = write!(
            text,
            "SEGM NAME=SEGMEN{number:02},PARENT={parent},BYTES=120\n\
             FIELD NAME=(KEYOFSEG,SEQ,U),BYTES=100,START=10,TYPE=C\n\
             FIELD NAME=FIELDTWO,BYTES=100,START=20,TYPE=C\n"
        );
        lines.expect("a string takes all");
    }
    text
}

/// Nanoseconds of a round, at its best.
fn best(mut round: impl FnMut()) -> f64 {
    let mut clock = Clock::new(&mut round);
    for _ in 0..REPETITIONS {
        clock.repeat(&mut round);
    }
    clock.best()
}

/// Reads a text that is right.
fn read(text: &[u8], cat: &mut [u8], names: &mut [u8]) {
    let result = linked::dbd_read(black_box(text), cat, names);
    assert_eq!(result, 32 << 8 | 64 << 16, "a full catalogue");
}

/// The rows as a table.
pub fn figures() -> String {
    let text = full();
    let lines = text.lines().count();
    let long = text.clone() + &"\n".repeat(MEGABYTE);
    let wide = text.clone() + &format!("{}\n", " ".repeat(79)).repeat(MEGABYTE / 80);
    let (mut cat, mut names) = ([0; 520], [0; 784]);
    let reading = best(|| read(text.as_bytes(), &mut cat, &mut names));
    let short = best(|| read(long.as_bytes(), &mut cat, &mut names)) - reading;
    let filled = best(|| read(wide.as_bytes(), &mut cat, &mut names)) - reading;
    read(text.as_bytes(), &mut cat, &mut names);
    let mut out = [0; 4651];
    let writing = best(|| {
        let result = linked::dbd_write(black_box(&cat), black_box(&names), &mut out);
        assert_eq!((result >> 32) as usize, text.len(), "the same text");
    });
    let rate =
        |count: usize, nanoseconds: f64| thousands((count as f64 * 1e9 / nanoseconds) as usize);
    let speed = |nanoseconds: f64| format!("{} MB/s", thousands((1e9 / nanoseconds) as usize));
    let row = |what: &str, figure: String| vec![what.to_string(), figure];
    aligned(&[
        row("DBD statements", "store".to_string()),
        row(
            "read, 97 lines of a full catalogue",
            format!("{} lines/s", rate(lines, reading)),
        ),
        row("read, 1 MB of empty lines behind it", speed(short)),
        row("read, 1 MB of lines of 79 blanks behind it", speed(filled)),
        row(
            "written, the same 97 lines",
            format!("{} lines/s", rate(lines, writing)),
        ),
    ])
}
