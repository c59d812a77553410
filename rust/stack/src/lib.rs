//! How deep the stack goes below a caller of the store, function by function and table by table.

mod asked;
pub mod blocks;
mod by_reference;
mod exported;
mod helpers;
mod painted;
mod statements;

use asked::{areas, lists, pairs, positions, Asked, Pair};
use blocks::{Blocks, TABLES};
use exported::{Exported, Measured};
use face::number::DLET;
use std::collections::BTreeSet;

/// The deepest stack of a function on each table, in bytes, from its caller's frame down, with the return address
/// and the arguments passed on the stack; none where it cannot be measured. And how its calls ended; of a helper, whether
/// it had an answer.
pub struct Depth {
    pub function: &'static str,
    pub bytes: [Option<usize>; TABLES],
    pub statuses: BTreeSet<u8>,
}

pub fn depths() -> Vec<Depth> {
    let tables = blocks::tables();
    exported::ALL
        .iter()
        .map(|(name, function)| {
            let mut statuses = BTreeSet::new();
            let bytes = std::array::from_fn(|table| {
                let mut deepest = Deepest::new(&mut statuses);
                measure(*function, &tables[table], &mut deepest);
                deepest.bytes
            });
            Depth {
                function: name,
                bytes,
                statuses,
            }
        })
        .collect()
}

/// The deepest so far, and the statuses met on the way.
struct Deepest<'a> {
    bytes: Option<usize>,
    statuses: &'a mut BTreeSet<u8>,
}

impl Deepest<'_> {
    fn new(statuses: &mut BTreeSet<u8>) -> Deepest<'_> {
        Deepest {
            bytes: None,
            statuses,
        }
    }

    fn note(&mut self, (bytes, result): Measured) {
        self.bytes = self.bytes.max(bytes);
        self.statuses.insert(result as u8);
    }
}

/// The function on sound blocks, and where it takes any bytes on such as are refused late.
fn measure(function: Exported, blocks: &Blocks, deepest: &mut Deepest) {
    match function {
        Exported::CatalogueCheck(f) => any_blocks(&|b| exported::checked(f, b), blocks, deepest),
        Exported::TableCheck(f) => any_blocks(&|b| exported::table_checked(f, b), blocks, deepest),
        Exported::TableMake(f) => any_blocks(&|b| exported::table_made(f, b), blocks, deepest),
        Exported::CobolCheck(f) => any_blocks(&|b| by_reference::checked(f, b), blocks, deepest),
        Exported::CobolMake(f) => any_blocks(&|b| by_reference::made(f, b), blocks, deepest),
        Exported::Call(f) => any_call(&|b, a| exported::called(f, b, a), blocks, deepest),
        Exported::CobolCall(f) => any_call(&|b, a| by_reference::called(f, b, a), blocks, deepest),
        Exported::CallSound(f) => every_call(&|b, a| exported::called(f, b, a), blocks, deepest),
        Exported::CobolCallSound(f) => {
            every_call(&|b, a| by_reference::called(f, b, a), blocks, deepest);
        }
        Exported::Report(f) => {
            any_report(
                &|b, p, room| exported::reported(f, b, p, room),
                blocks,
                deepest,
            );
        }
        Exported::CobolReport(f) => {
            any_report(
                &|b, p, room| by_reference::reported(f, b, p, room),
                blocks,
                deepest,
            );
        }
        Exported::DbdRead(f) => {
            for text in statements::texts(blocks) {
                for room in [784, 0] {
                    deepest.note(statements::read(f, &text, room));
                }
            }
        }
        Exported::DbdWrite(f) => {
            for (short, room) in [(0, 4651), (1, 4651), (0, 0)] {
                deepest.note(statements::write(f, blocks, short, room));
            }
        }
        helper => measure_helper(helper, blocks, deepest),
    }
}

/// The helpers, each with an answer and without one.
fn measure_helper(function: Exported, blocks: &Blocks, deepest: &mut Deepest) {
    for number in [0, 1, 255, 4097] {
        match function {
            Exported::TableSize(f) => deepest.note(helpers::table_sized(f, blocks, number)),
            Exported::DataLength(f) => deepest.note(helpers::data_measured(f, blocks, number)),
            Exported::ListTest(f) => deepest.note(helpers::list_tested(f, blocks, number)),
            Exported::Letters(f) => deepest.note(helpers::lettered(f, number as u8)),
            _ => unreachable!("every other function is measured above"),
        }
    }
}

type OnBlocks<'a> = &'a dyn Fn(&Blocks) -> Measured;
type OnCall<'a> = &'a dyn Fn(&Blocks, &Asked) -> Measured;
type OnReport<'a> = &'a dyn Fn(&Blocks, &Pair, usize) -> Measured;

fn any_blocks(run: OnBlocks, blocks: &Blocks, deepest: &mut Deepest) {
    deepest.note(run(blocks));
    blocks
        .refused_late()
        .iter()
        .for_each(|blocks| deepest.note(run(blocks)));
}

fn any_call(run: OnCall, blocks: &Blocks, deepest: &mut Deepest) {
    every_call(run, blocks, deepest);
    any_blocks(
        &|blocks| run(blocks, &Asked::past_the_end()),
        blocks,
        deepest,
    );
}

fn any_report(run: OnReport, blocks: &Blocks, deepest: &mut Deepest) {
    for pair in pairs(blocks) {
        for room in [2 * blocks.cells, 2, 0] {
            deepest.note(run(blocks, &pair, room));
        }
    }
    any_blocks(&|blocks| run(blocks, &Pair::roots(), 0), blocks, deepest);
}

/// The nine calls and the numbers beside them, with every list, from every position, with every area.
fn every_call(run: OnCall, blocks: &Blocks, deepest: &mut Deepest) {
    for list in lists(blocks) {
        for position in positions(blocks) {
            for area in areas(blocks, position) {
                for number in 0..=DLET + 1 {
                    let asked = Asked {
                        number,
                        position,
                        list: list.clone(),
                        area: area.clone(),
                    };
                    deepest.note(run(blocks, &asked));
                }
            }
        }
    }
}
