//! The bench table, and short words for its arguments.

use umbristal::{Argument, FieldNumber, Op, Store, TypeCode};

pub const UNIT: TypeCode = TypeCode(1);
pub const STEP: TypeCode = TypeCode(2);
pub const TRY: TypeCode = TypeCode(3);
pub const NOTE: TypeCode = TypeCode(4);

pub const UNIT_KEY: FieldNumber = FieldNumber(1);
pub const STEP_KEY: FieldNumber = FieldNumber(2);
pub const VERDICT: FieldNumber = FieldNumber(3);

pub fn blocks() -> (Vec<u8>, Vec<u8>) {
    let catalogue = include_bytes!("../../../../crates/lister/data/CAT.HDC");
    let table = include_bytes!("../../../../crates/lister/data/TAB.HDT");
    (catalogue.to_vec(), table.to_vec())
}

pub fn store() -> Store {
    let (catalogue, table) = blocks();
    Store::open(catalogue, table).expect("the bench blocks are sound")
}

pub fn unit(key: &[u8]) -> Argument<'_> {
    Argument::test(UNIT, UNIT_KEY, Op::Eq, key)
}

pub fn step(key: &[u8]) -> Argument<'_> {
    Argument::test(STEP, STEP_KEY, Op::Eq, key)
}
