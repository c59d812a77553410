//! The crate from outside, on the bench table of the manual.

mod bench;
mod blocks;
mod cases;
mod lengths;
mod lists;
mod misses;
mod packed;
mod reading;
mod statuses;
mod stays_sound;
