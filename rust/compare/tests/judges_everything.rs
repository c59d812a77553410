//! A fixed run reaches every status that the rules allow a call, and no other.

use compare::tally::Row;
use compare::{run, JUDGE};
use face::number;
use judge::Status::{self, *};

const BLOCKS: [Status; 3] = [CX, TX, PX];
const LIST: [Status; 3] = [AC, AJ, AK];

/// What a call may answer besides blocks, position and list.
fn own(number: u8) -> Vec<Status> {
    match number {
        number::GU | number::GHU => vec![Blank, GE, AB],
        number::GN | number::GHN => vec![Blank, GA, GK, GB, GE, AB],
        number::GNP | number::GHNP => vec![Blank, GA, GK, GE, GP, AB],
        number::ISRT => vec![Blank, GE, AH, AB, II, FX, PD],
        number::REPL => vec![Blank, AB, DJ, DA],
        _ => vec![Blank, DJ],
    }
}

#[test]
fn each_status_of_each_call() {
    let tally = match run(&JUDGE, &JUDGE, 3, 200_000) {
        Ok(tally) => tally,
        Err(difference) => panic!("{difference}"),
    };
    println!("{tally}");
    for number in 0..=9 {
        let expected = match number {
            0 => vec![CX, TX, PX, AD],
            _ => [&BLOCKS[..], &LIST[..], &own(number)].concat(),
        };
        reached(&tally, Row::Call(number), &expected);
    }
    reached(&tally, Row::CatalogueCheck, &[Blank, CX]);
    reached(&tally, Row::TableCheck, &[Blank, CX, TX]);
    reached(&tally, Row::Maker, &[Blank, CX, TX]);
    for way in judge::Way::ALL {
        let expected = [Blank, CX, TX, AC, AJ, AK, AB];
        reached(&tally, Row::Report(way), &expected);
    }
}

/// The row has been there for exactly these.
fn reached(tally: &compare::Tally, row: Row, expected: &[Status]) {
    for status in Status::ALL {
        let is_reached = tally.of(row, status) > 0;
        assert_eq!(is_reached, expected.contains(&status), "{row:?} {status:?}");
    }
}
