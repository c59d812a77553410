//! The work, by the crate for Rust programs.

use crate::contenders::CRATE;
use crate::sample::{serial, Sample, Segment};
use crate::sample::{STATE, STEP, STEP_KEY, TRY, UNIT, UNIT_KEY, VERDICT};
use crate::work::{Contender, Done, Operation};
use std::hint::black_box;
use umbristal::{Argument, CellNumber, Error, FieldNumber, Op, Store, TypeCode};

/// A store over the sample's table.
pub struct Users<'s> {
    sample: &'s Sample,
    store: Store,
    newcomer: Segment,
}

impl<'s> Users<'s> {
    pub fn new(sample: &'s Sample) -> Users<'s> {
        let opened = Store::open(sample.catalogue.clone(), sample.table.clone());
        Users {
            sample,
            store: opened.expect("the sample is sound"),
            newcomer: sample.newcomer(),
        }
    }

    fn listing(&mut self) -> Result<Done, Error> {
        let mut done = Done { count: 0, sum: 0 };
        while let Some(segment) = self.store.get_next(&[]).segment()? {
            done.count += 1;
            done.sum += serial(segment.data);
        }
        Ok(done)
    }

    fn unique(&mut self) -> Result<Done, Error> {
        let mut sum = 0;
        for (unit, step) in &self.sample.probes {
            let list = [is(UNIT, UNIT_KEY, unit), is(STEP, STEP_KEY, step)];
            let segment = self.store.get_unique(black_box(&list)).found()?;
            sum += serial(segment.data);
        }
        Ok(Done {
            count: self.sample.probes.len(),
            sum,
        })
    }

    fn insert_get_delete(&mut self) -> Result<Done, Error> {
        let Segment {
            unit, step, data, ..
        } = &self.newcomer;
        let step = [is(UNIT, UNIT_KEY, unit), is(STEP, STEP_KEY, step)];
        let new = [step[0], step[1], Argument::all(TypeCode(TRY))];
        let get = [step[0], step[1], is(TRY, VERDICT, &data[..1])];
        self.store.insert(black_box(&new), data)?;
        let got = self.store.get_hold_unique(black_box(&get)).found()?;
        let cell = got.cell;
        Ok(Done {
            count: self.store.delete()?.removed,
            sum: cell.0.into(),
        })
    }

    fn report(&self, report: Report) -> Result<Done, Error> {
        let units = [is(UNIT, STATE, b"A")];
        let tries = [is(TRY, VERDICT, b"P")];
        let cells = report(&self.store, black_box(&units), black_box(&tries))?;
        Ok(Done {
            count: cells.len(),
            sum: cells.iter().map(|cell| u64::from(cell.0)).sum(),
        })
    }
}

type Report = fn(&Store, &[Argument], &[Argument]) -> Result<Vec<CellNumber>, Error>;

fn is(type_code: u8, field: u8, value: &[u8]) -> Argument<'_> {
    Argument::test(TypeCode(type_code), FieldNumber(field), Op::Eq, value)
}

impl Contender<Operation> for Users<'_> {
    fn name(&self) -> &'static str {
        CRATE
    }

    /// The crate checks once, sets no hold by hand and has one position: what asks for another is not offered.
    fn run(&mut self, operation: &Operation) -> Option<Done> {
        self.store.rewind();
        let done = match operation {
            Operation::Listing => self.listing(),
            Operation::Nested => self.report(Store::report_nested),
            Operation::Joined => self.report(Store::report_joined),
            Operation::Plain => self.report(Store::report_plain),
            Operation::Unique => self.unique(),
            Operation::InsertGetDelete => self.insert_get_delete(),
            Operation::InsertDelete | Operation::Checked | Operation::InTurns => return None,
        };
        Some(done.expect("nothing is refused, and all is there"))
    }

    fn is_as_before(&self) -> bool {
        self.store.table() == self.sample.table
    }
}
