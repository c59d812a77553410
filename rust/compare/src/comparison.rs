//! The comparison: the same bytes to both stores, and everything they leave behind side by side.

use crate::dice::Dice;
use crate::tally::{Row, Tally};
use face::{Functions, Report};
use judge::{Status, Way};
use std::fmt;

/// What a call is lent.
#[derive(Clone, Copy)]
pub struct Lent<'a> {
    pub catalogue: &'a [u8],
    pub table: &'a [u8],
    pub position: &'a [u8],
    pub number: u8,
    pub list: &'a [u8],
    pub area: &'a [u8],
}

/// What it leaves behind.
#[derive(Clone, PartialEq, Eq)]
pub struct Left {
    pub packed: u64,
    pub position: Vec<u8>,
    pub table: Vec<u8>,
    pub area: Vec<u8>,
}

impl Left {
    pub fn status(&self) -> u8 {
        self.packed as u8
    }
}

/// Two stores that did not do the same.
#[derive(Debug)]
pub struct Difference {
    pub seed: u64,
    pub case: u64,
    pub step: u64,
    text: String,
}

impl fmt::Display for Difference {
    fn fmt(&self, out: &mut fmt::Formatter) -> fmt::Result {
        let Difference {
            seed,
            case,
            step,
            text,
        } = self;
        write!(out, "seed {seed}, case {case}, step {step}: {text}")
    }
}

/// Bytes lent with a margin on both sides, so that a write outside the slice is seen.
struct Margined {
    bytes: Vec<u8>,
    length: usize,
}

const MARGIN: usize = 16;
const MARGIN_BYTE: u8 = 0xA5;

impl Margined {
    fn new(slice: &[u8]) -> Margined {
        let mut bytes = Vec::with_capacity(slice.len() + 2 * MARGIN);
        bytes.resize(MARGIN, MARGIN_BYTE);
        bytes.extend_from_slice(slice);
        bytes.resize(slice.len() + 2 * MARGIN, MARGIN_BYTE);
        Margined {
            bytes,
            length: slice.len(),
        }
    }

    fn lend(&mut self) -> &mut [u8] {
        &mut self.bytes[MARGIN..][..self.length]
    }

    /// The bytes, margins taken off; a margin that was written to stays, so that it shows as a difference.
    fn take(mut self) -> Vec<u8> {
        let (front, behind) = self.bytes.split_at(MARGIN);
        let behind = &behind[self.length..];
        let clean = |margin: &[u8]| margin.iter().all(|&byte| byte == MARGIN_BYTE);
        if clean(front) && clean(behind) {
            self.bytes.truncate(MARGIN + self.length);
            self.bytes.drain(..MARGIN);
        }
        self.bytes
    }
}

/// Two stores, and how far their comparison has come.
pub struct Comparison<'s> {
    judge: &'s Functions,
    store: &'s Functions,
    seed: u64,
    case: u64,
    step: u64,
    pub tally: Tally,
}

type Compared<T> = Result<T, Box<Difference>>;

impl<'s> Comparison<'s> {
    pub fn new(judge: &'s Functions, store: &'s Functions, seed: u64) -> Comparison<'s> {
        Comparison {
            judge,
            store,
            seed,
            case: 0,
            step: 0,
            tally: Tally::default(),
        }
    }

    /// Begins a case and hands out its dice.
    pub fn open_case(&mut self, case: u64) -> Dice {
        self.case = case;
        self.step = 0;
        Dice::new(self.seed, case)
    }

    /// One call to both; the sound call too, where the judge accepts blocks and position.
    pub fn call(&mut self, lent: Lent) -> Compared<Left> {
        self.step += 1;
        let expected = lend_to(self.judge.call, lent);
        self.tally.count(Row::Call(lent.number), expected.status());
        let actual = lend_to(self.store.call, lent);
        if actual != expected {
            return Err(self.call_difference("call", lent, &expected, &actual));
        }
        let refused = [Status::CX, Status::TX, Status::PX]
            .iter()
            .any(|status| status.number() == expected.status());
        if !refused {
            self.tally.sound += 1;
            let sound = |cat: &_, tab: &mut _, pos: &mut _, number, list: &_, area: &mut _| {
                // SAFETY: the judge has accepted blocks and position just now.
                unsafe { (self.store.call_sound)(cat, tab, pos, number, list, area) }
            };
            let sound = lend_to(sound, lent);
            if sound != expected {
                return Err(self.call_difference("sound call", lent, &expected, &sound));
            }
        }
        Ok(expected)
    }

    pub fn catalogue_check(&mut self, catalogue: &[u8]) -> Compared<u8> {
        self.step += 1;
        let expected = (self.judge.catalogue_check)(catalogue);
        self.tally.count(Row::CatalogueCheck, expected);
        let actual = (self.store.catalogue_check)(catalogue);
        if actual != expected {
            let inputs = [("catalogue", catalogue)];
            return Err(self.difference("catalogue check", &inputs, expected, actual));
        }
        Ok(expected)
    }

    pub fn table_check(&mut self, catalogue: &[u8], table: &[u8]) -> Compared<u8> {
        self.step += 1;
        let expected = (self.judge.table_check)(catalogue, table);
        self.tally.count(Row::TableCheck, expected);
        let actual = (self.store.table_check)(catalogue, table);
        if actual != expected {
            let inputs = [("catalogue", catalogue), ("table", table)];
            return Err(self.difference("table check", &inputs, expected, actual));
        }
        Ok(expected)
    }

    pub fn table_make(&mut self, catalogue: &[u8], slice: &[u8]) -> Compared<Vec<u8>> {
        self.step += 1;
        let make = |store: &Functions| {
            let mut lent = Margined::new(slice);
            let status = (store.table_make)(catalogue, lent.lend());
            (status, lent.take())
        };
        let expected = make(self.judge);
        self.tally.count(Row::Maker, expected.0);
        let actual = make(self.store);
        if actual != expected {
            let inputs = [("catalogue", catalogue), ("slice", slice)];
            let text = |made: &(u8, Vec<u8>)| format!("status {} table {}", made.0, hex(&made.1));
            return Err(self.difference("maker", &inputs, text(&expected), text(&actual)));
        }
        Ok(expected.1)
    }

    /// The three reports, which must agree between the stores and with each other. Hands back the packed
    /// result.
    pub fn reports(
        &mut self,
        catalogue: &[u8],
        table: &[u8],
        list1: &[u8],
        list2: &[u8],
        out: &[u8],
    ) -> Compared<u64> {
        self.step += 1;
        let report = |store: &Functions, way: Way| {
            let mut lent = Margined::new(out);
            let packed = report_of(store, way)(catalogue, table, list1, list2, lent.lend());
            (packed, lent.take())
        };
        let expected = report(self.judge, Way::Plain);
        for way in Way::ALL {
            self.tally.count(Row::Report(way), expected.0 as u8);
            for (store, whose) in [(self.judge, "judge"), (self.store, "store")] {
                let actual = report(store, way);
                if actual != expected {
                    let what = format!("{way:?} report of the {whose}");
                    let inputs = [
                        ("catalogue", catalogue),
                        ("table", table),
                        ("list 1", list1),
                        ("list 2", list2),
                        ("out", out),
                    ];
                    let text =
                        |left: &(u64, Vec<u8>)| format!("{:016x} out {}", left.0, hex(&left.1));
                    return Err(self.difference(&what, &inputs, text(&expected), text(&actual)));
                }
            }
        }
        Ok(expected.0)
    }

    /// Something the stores agree on that the rules rule out.
    pub fn insist(&self, holds: bool, what: &str) -> Compared<()> {
        if holds {
            return Ok(());
        }
        Err(self.difference(what, &[], "yes", "no"))
    }

    fn call_difference(
        &self,
        what: &str,
        lent: Lent,
        expected: &Left,
        actual: &Left,
    ) -> Box<Difference> {
        let number = [lent.number];
        let inputs: [(&str, &[u8]); 6] = [
            ("catalogue", lent.catalogue),
            ("table", lent.table),
            ("position", lent.position),
            ("number", &number),
            ("list", lent.list),
            ("area", lent.area),
        ];
        self.difference(what, &inputs, expected, actual)
    }

    fn difference(
        &self,
        what: &str,
        inputs: &[(&str, &[u8])],
        expected: impl fmt::Display,
        actual: impl fmt::Display,
    ) -> Box<Difference> {
        let mut text = format!("{what}\n");
        for (name, bytes) in inputs {
            text += &format!("  lent {name}: {}\n", hex(bytes));
        }
        text += &format!("  {}: {expected}\n", self.judge.name);
        text += &format!("  {}: {actual}", self.store.name);
        Box::new(Difference {
            seed: self.seed,
            case: self.case,
            step: self.step,
            text,
        })
    }
}

impl fmt::Display for Left {
    fn fmt(&self, out: &mut fmt::Formatter) -> fmt::Result {
        let [status, type_code, level, length] = (self.packed as u32).to_le_bytes();
        let removed = self.packed >> 32;
        write!(
            out,
            "status {status} type {type_code} level {level} length {length} removed {removed}\n    \
             position {}\n    table {}\n    area {}",
            hex(&self.position),
            hex(&self.table),
            hex(&self.area)
        )
    }
}

fn report_of(store: &Functions, way: Way) -> Report {
    match way {
        Way::Nested => store.report_nested,
        Way::Joined => store.report_joined,
        Way::Plain => store.report_plain,
    }
}

/// What the call leaves behind of what it is lent.
fn lend_to(
    call: impl Fn(&[u8], &mut [u8], &mut [u8], u8, &[u8], &mut [u8]) -> u64,
    lent: Lent,
) -> Left {
    let mut table = Margined::new(lent.table);
    let mut position = Margined::new(lent.position);
    let mut area = Margined::new(lent.area);
    let packed = call(
        lent.catalogue,
        table.lend(),
        position.lend(),
        lent.number,
        lent.list,
        area.lend(),
    );
    Left {
        packed,
        position: position.take(),
        table: table.take(),
        area: area.take(),
    }
}

pub(crate) fn hex(bytes: &[u8]) -> String {
    bytes.iter().map(|byte| format!("{byte:02x}")).collect()
}
