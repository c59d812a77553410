//! The judge against the cases B1 to B10, and others that were asked for.

mod bench;
mod desk;
mod loops;
mod packed;
mod readings;
mod refusals;
mod run_also;
