//! What is asked of a table: lists, positions and areas.

use crate::blocks::{Blocks, DATA};
use face::number::GN;
use face::status;

/// One call but for its blocks.
pub struct Asked {
    pub number: u8,
    pub position: [u8; 8],
    pub list: Vec<u8>,
    pub area: Vec<u8>,
}

impl Asked {
    /// A place that no table has.
    pub fn past_the_end() -> Asked {
        Asked {
            number: GN,
            position: [1, 0xFF, 0xFF, 0, 0, 0, 0, 0],
            list: vec![],
            area: vec![0; DATA],
        }
    }
}

/// Two lists that a report takes as one.
pub struct Pair {
    pub one: Vec<u8>,
    pub two: Vec<u8>,
}

impl Pair {
    pub fn roots() -> Pair {
        Pair {
            one: vec![1, 0],
            two: vec![2, 0],
        }
    }
}

/// The start; the first cell, the fifteenth and the last, each with itself as parentage, and with the first root where it
/// lies beneath that; held and not.
pub fn positions(blocks: &Blocks) -> Vec<[u8; 8]> {
    let mut positions = vec![face::FRESH];
    if let Some(last) = blocks.cells.checked_sub(1) {
        for cell in [0, 14, last] {
            let [high, low] = (cell as u16).to_be_bytes();
            for hold in [0, 1] {
                positions.push([1, high, low, 1, high, low, hold, 0]);
                positions.push([1, high, low, 1, 0, 0, hold, 0]);
            }
        }
    }
    positions.retain(|position| is_good(blocks, *position));
    positions
}

/// Of a call that is none the position is looked at, and nothing behind it.
fn is_good(blocks: &Blocks, mut position: [u8; 8]) -> bool {
    let mut table = blocks.table.clone();
    let result = linked::call(
        &blocks.catalogue,
        &mut table,
        &mut position,
        0,
        &[],
        &mut [],
    );
    result as u8 == status::AD
}

/// What the cell of a position holds, so that a key is the same; a key above all others, which is no number, and one that
/// no segment has; and an area that is too short.
pub fn areas(blocks: &Blocks, position: [u8; 8]) -> [Vec<u8>; 4] {
    let [high, low] = blocks.none.to_be_bytes();
    let cell = u16::from_be_bytes([position[1], position[2]]);
    [
        blocks.data(usize::from(cell)),
        vec![0xFE; DATA],
        [&[high, low], &[0; DATA - 2][..]].concat(),
        vec![0; DATA - 1],
    ]
}

/// An argument for type t: its type alone, or a test of its first two data bytes.
fn argument(t: u8, test: Option<(u8, u16)>) -> Vec<u8> {
    match test {
        None => vec![t, 0],
        Some((operator, value)) => {
            let [high, low] = value.to_be_bytes();
            vec![t, operator, t, high, low]
        }
    }
}

const EQUAL: u8 = 1;
const AT_LEAST: u8 = 6;

/// Arguments for all levels down to the lowest type: what the root's and the lowest one's test, and between them a test that
/// holds.
fn whole_path(blocks: &Blocks, root: (u8, u16), lowest: Option<(u8, u16)>) -> Vec<Vec<u8>> {
    let path = blocks.path();
    let below = path.len() - 1;
    let test = |(level, &t): (usize, &u8)| match level {
        _ if level == below => argument(t, lowest),
        0 => argument(t, Some(root)),
        _ => argument(t, Some((AT_LEAST, blocks.least))),
    };
    path.iter().enumerate().map(test).collect()
}

/// Paths with every level tested: found first, found last, not found.
fn paths(blocks: &Blocks) -> Vec<Vec<Vec<u8>>> {
    let (any, none) = ((AT_LEAST, blocks.least), (EQUAL, blocks.none));
    let last_root = (EQUAL, blocks.last_root);
    vec![
        whole_path(blocks, any, Some(any)),
        whole_path(blocks, last_root, Some(any)),
        whole_path(blocks, any, Some((EQUAL, blocks.last_data))),
        whole_path(blocks, any, Some(none)),
        whole_path(blocks, none, None),
        whole_path(blocks, last_root, None),
    ]
}

/// No list; the lowest type alone, as it is, its last segment and none; all levels, likewise; and lists that are refused.
pub fn lists(blocks: &Blocks) -> Vec<Vec<u8>> {
    let lowest = blocks.lowest;
    let mut lists = vec![
        vec![],
        argument(lowest, None),
        argument(lowest, Some((EQUAL, blocks.last_data))),
        argument(lowest, Some((EQUAL, blocks.none))),
        vec![lowest, 7],
        vec![lowest, 1, 0],
        vec![40, 0],
    ];
    lists.extend(paths(blocks).into_iter().map(|path| path.concat()));
    lists
}

/// The root's type above and its first child's below, then the lowest one's; every whole path cut behind its first, its
/// middle and its last but one argument; and two that are no list together.
pub fn pairs(blocks: &Blocks) -> Vec<Pair> {
    let mut pairs = vec![
        Pair::roots(),
        Pair {
            one: vec![blocks.lowest, 0],
            two: vec![1, 0],
        },
        Pair {
            one: vec![1, 0],
            two: vec![],
        },
    ];
    if blocks.path().len() < 2 {
        return pairs;
    }
    let (last, none) = ((EQUAL, blocks.last_data), (EQUAL, blocks.none));
    for test in [None, Some(last), Some(none)] {
        pairs.push(Pair {
            one: vec![1, 0],
            two: argument(blocks.lowest, test),
        });
    }
    for path in paths(blocks) {
        for cut in [1, path.len() / 2, path.len() - 1] {
            pairs.push(Pair {
                one: path[..cut].concat(),
                two: path[cut..].concat(),
            });
        }
    }
    pairs
}
