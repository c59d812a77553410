//! The work, by DL/I calls: what the store and the hand-written Rust have in common.

use crate::sample::{
    serial, Sample, Segment, CELL, LENGTH, STATE, STEP, STEP_KEY, TRY, UNIT, UNIT_KEY, VERDICT,
};
use crate::work::{cell_numbers, Contender, Done, Operation, CHECKED_CALLS, TURNS};
use face::number::{DLET, GHU, GN, GU, ISRT};
use face::status::GB;
use face::{Functions, Report, FRESH, POSITION_SIZE};
use std::hint::black_box;

/// Whose functions are measured. They are known when this is compiled, so that no call goes through a pointer and
/// hand-written Rust can be inlined.
pub trait Measured {
    const FUNCTIONS: Functions;
}

/// A table under calls.
pub struct Session<'s, F> {
    sample: &'s Sample,
    table: Vec<u8>,
    newcomer: Segment,
    out: Vec<u8>,
    measured: std::marker::PhantomData<F>,
}

impl<'s, F: Measured> Session<'s, F> {
    pub fn new(sample: &'s Sample) -> Session<'s, F> {
        assert_eq!(linked::table_check(&sample.catalogue, &sample.table), 0);
        Session {
            sample,
            table: sample.table.clone(),
            newcomer: sample.newcomer(),
            out: vec![0; 2 * sample.segments.len()],
            measured: std::marker::PhantomData,
        }
    }

    fn sound(&mut self, position: &mut [u8], number: u8, list: &[u8], area: &mut [u8]) -> u64 {
        let catalogue = &self.sample.catalogue;
        // SAFETY: the table was checked when the session began. Each position starts fresh, and only calls have changed
        // it since, but for a hold that is set on the cell that it is on.
        unsafe {
            (F::FUNCTIONS.call_sound)(catalogue, &mut self.table, position, number, list, area)
        }
    }

    fn listing(&mut self) -> Done {
        let mut position = FRESH;
        let mut area = [0; LENGTH];
        let mut done = Done { count: 0, sum: 0 };
        while (self.sound(&mut position, GN, &[], &mut area) as u8) < GB {
            done.count += 1;
            done.sum += serial(&area);
        }
        done
    }

    /// Every position has an area of its own, and all of them end in the same turn.
    fn in_turns(&mut self) -> Done {
        let mut positions = [FRESH; TURNS];
        let mut areas = [[0; LENGTH]; TURNS];
        let mut done = Done { count: 0, sum: 0 };
        loop {
            for (position, area) in positions.iter_mut().zip(&mut areas) {
                if self.sound(position, GN, &[], area) as u8 >= GB {
                    return done;
                }
                done.count += 1;
                done.sum += serial(area);
            }
        }
    }

    fn checked(&mut self) -> Done {
        let mut position = FRESH;
        let mut area = [0; LENGTH];
        let mut sum = 0;
        for _ in 0..CHECKED_CALLS {
            (F::FUNCTIONS.call)(
                &self.sample.catalogue,
                &mut self.table,
                &mut position,
                GN,
                &[],
                &mut area,
            );
            sum += serial(&area);
        }
        Done {
            count: CHECKED_CALLS,
            sum,
        }
    }

    fn unique(&mut self) -> Done {
        let mut position = FRESH;
        let mut area = [0; LENGTH];
        let mut sum = 0;
        for (unit, step) in &self.sample.probes {
            let list = by_keys(*unit, *step);
            self.sound(&mut position, GU, black_box(&list), &mut area);
            sum += serial(&area);
        }
        Done {
            count: self.sample.probes.len(),
            sum,
        }
    }

    /// The insert leaves the place on the new cell. Its hold is set in the block, which keeps the position
    /// good, or got by key.
    fn insert_delete(&mut self, by_key: bool) -> Done {
        let mut position: [u8; POSITION_SIZE] = FRESH;
        let mut area = self.newcomer.data;
        let [u1, u2] = self.newcomer.unit;
        let [s1, s2] = self.newcomer.step;
        let insert = [UNIT, 1, UNIT_KEY, u1, u2, STEP, 1, STEP_KEY, s1, s2, TRY, 0];
        self.sound(&mut position, ISRT, black_box(&insert), &mut area);
        if by_key {
            let get = [
                UNIT, 1, UNIT_KEY, u1, u2, STEP, 1, STEP_KEY, s1, s2, TRY, 1, VERDICT, area[0],
            ];
            self.sound(&mut position, GHU, black_box(&get), &mut area);
        } else {
            position[6] = 1;
        }
        let cell = cell_numbers(&position[1..3]).sum();
        let removed = self.sound(&mut position, DLET, &[], &mut area) >> 32;
        Done {
            count: removed as usize,
            sum: cell,
        }
    }

    fn report(&mut self, report: Report) -> Done {
        let packed = report(
            &self.sample.catalogue,
            &self.table,
            black_box(&[UNIT, 1, STATE, b'A']),
            black_box(&[TRY, 1, VERDICT, b'P']),
            &mut self.out,
        );
        let count = (packed >> 32) as usize;
        Done {
            count,
            sum: cell_numbers(&self.out[..2 * count]).sum(),
        }
    }
}

fn by_keys(unit: [u8; 2], step: [u8; 2]) -> [u8; 10] {
    let ([u1, u2], [s1, s2]) = (unit, step);
    [UNIT, 1, UNIT_KEY, u1, u2, STEP, 1, STEP_KEY, s1, s2]
}

impl<F: Measured> Contender<Operation> for Session<'_, F> {
    fn name(&self) -> &'static str {
        F::FUNCTIONS.name
    }

    fn run(&mut self, operation: &Operation) -> Option<Done> {
        Some(match operation {
            Operation::Listing => self.listing(),
            Operation::Nested => self.report(F::FUNCTIONS.report_nested),
            Operation::Joined => self.report(F::FUNCTIONS.report_joined),
            Operation::Plain => self.report(F::FUNCTIONS.report_plain),
            Operation::Unique => self.unique(),
            Operation::InsertDelete => self.insert_delete(false),
            Operation::InsertGetDelete => self.insert_delete(true),
            Operation::Checked => self.checked(),
            Operation::InTurns => self.in_turns(),
        })
    }

    fn is_as_before(&self) -> bool {
        self.table == self.sample.table
    }
}

/// The proved store.
pub struct Proved;

impl Measured for Proved {
    const FUNCTIONS: Functions = linked::STORE;
}

/// Moves the bytes behind the newcomer's place up by a cell and down again: the floor of an insert and a delete.
pub struct Floor {
    table: Vec<u8>,
    start: usize,
    tail: usize,
}

impl Floor {
    pub fn new(sample: &Sample) -> Floor {
        Floor {
            table: sample.table.clone(),
            start: 8 + sample.newcomer_cell() * CELL,
            tail: sample.tail(),
        }
    }
}

impl Contender<Operation> for Floor {
    fn name(&self) -> &'static str {
        "memmove"
    }

    fn run(&mut self, operation: &Operation) -> Option<Done> {
        if *operation != Operation::InsertDelete {
            return None;
        }
        let (start, tail) = (self.start, self.tail);
        self.table.copy_within(start..start + tail, start + CELL);
        black_box(&mut self.table);
        self.table
            .copy_within(start + CELL..start + CELL + tail, start);
        black_box(&mut self.table);
        Some(Done {
            count: 1,
            sum: ((start - 8) / CELL) as u64,
        })
    }
}
