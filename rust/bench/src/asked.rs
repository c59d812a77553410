//! One round of what is asked of a worst table.

use crate::calls::Measured;
use crate::sample::{serial, LENGTH};
use crate::shapes::Blocks;
use crate::work::{cell_numbers, Contender, Done};
use face::number::{DLET, GN, GNP, GU, ISRT};
use face::status::{AD, GB};
use face::{FRESH, POSITION_SIZE};
use std::hint::black_box;
use std::marker::PhantomData;

/// Which of the reports.
#[derive(Clone, Copy, Debug)]
pub enum Way {
    Nested,
    Joined,
    Plain,
}

#[derive(Debug)]
pub enum Asked {
    /// Get-next with a list, from the start until nothing is found.
    Next(Vec<u8>),
    /// Get-next-within-parent with the second list, beneath what get-unique finds with the first.
    Within(Vec<u8>, Vec<u8>),
    /// Get-unique with a list, from where the call before has left the position.
    Unique(Vec<u8>),
    Report(Way, Vec<u8>, Vec<u8>),
    /// The check of catalogue and table.
    Check,
    /// A segment with the data of this cell put in by a list and taken away again, the hold given.
    Insert(Vec<u8>, usize),
}

/// A worst table under calls.
pub struct Session<'b, F> {
    blocks: &'b Blocks,
    table: Vec<u8>,
    position: [u8; POSITION_SIZE],
    out: Vec<u8>,
    measured: PhantomData<F>,
}

impl<'b, F: Measured> Session<'b, F> {
    pub fn new(blocks: &'b Blocks) -> Session<'b, F> {
        assert_eq!(linked::table_check(&blocks.catalogue, &blocks.table), 0);
        Session {
            blocks,
            table: blocks.table.clone(),
            position: FRESH,
            out: vec![0; 2 * blocks.codes.len()],
            measured: PhantomData,
        }
    }

    fn sound(&mut self, number: u8, list: &[u8], area: &mut [u8]) -> u64 {
        let (table, position) = (&mut self.table, &mut self.position);
        // SAFETY: the table was checked when the session began. The position starts fresh, and only calls have changed
        // it since, but for a hold that is set on the cell that it is on.
        unsafe {
            (F::FUNCTIONS.call_sound)(&self.blocks.catalogue, table, position, number, list, area)
        }
    }

    /// Calls until nothing more is found; none where the call is not there.
    fn until_none(&mut self, number: u8, list: &[u8]) -> Option<Done> {
        let mut area = [0; LENGTH];
        let mut done = Done { count: 0, sum: 0 };
        loop {
            match self.sound(number, black_box(list), &mut area) as u8 {
                AD => return None,
                status if status >= GB => return Some(done),
                _ => {}
            }
            done.count += 1;
            done.sum += serial(&area);
        }
    }

    fn within(&mut self, parent: &[u8], list: &[u8]) -> Option<Done> {
        self.sound(GU, black_box(parent), &mut [0; LENGTH]);
        self.until_none(GNP, list)
    }

    fn unique(&mut self, list: &[u8]) -> Done {
        let mut area = [0; LENGTH];
        let found = (self.sound(GU, black_box(list), &mut area) as u8) < GB;
        Done {
            count: usize::from(found),
            sum: serial(&area),
        }
    }

    fn report(&mut self, way: Way, list1: &[u8], list2: &[u8]) -> Done {
        let report = match way {
            Way::Nested => F::FUNCTIONS.report_nested,
            Way::Joined => F::FUNCTIONS.report_joined,
            Way::Plain => F::FUNCTIONS.report_plain,
        };
        let (catalogue, out) = (&self.blocks.catalogue, &mut self.out);
        let packed = report(
            catalogue,
            &self.table,
            black_box(list1),
            black_box(list2),
            out,
        );
        let count = (packed >> 32) as usize;
        Done {
            count,
            sum: cell_numbers(&out[..2 * count]).sum(),
        }
    }

    fn check(&self) -> Done {
        let status = (F::FUNCTIONS.table_check)(&self.blocks.catalogue, black_box(&self.table));
        Done {
            count: 1,
            sum: status.into(),
        }
    }

    fn insert_delete(&mut self, list: &[u8], cell: usize) -> Done {
        let mut area = self.blocks.data(cell);
        if self.sound(ISRT, black_box(list), &mut area) as u8 >= GB {
            return Done { count: 0, sum: 0 };
        }
        self.position[6] = 1;
        let place = cell_numbers(&self.position[1..3]).sum();
        let removed = self.sound(DLET, &[], &mut area) >> 32;
        Done {
            count: removed as usize,
            sum: place,
        }
    }
}

impl<F: Measured> Contender<Asked> for Session<'_, F> {
    fn name(&self) -> &'static str {
        F::FUNCTIONS.name
    }

    fn run(&mut self, asked: &Asked) -> Option<Done> {
        if !matches!(asked, Asked::Unique(_)) {
            self.position = FRESH;
        }
        match asked {
            Asked::Next(list) => self.until_none(GN, list),
            Asked::Within(parent, list) => self.within(parent, list),
            Asked::Unique(list) => Some(self.unique(list)),
            Asked::Report(way, list1, list2) => Some(self.report(*way, list1, list2)),
            Asked::Check => Some(self.check()),
            Asked::Insert(list, cell) => Some(self.insert_delete(list, *cell)),
        }
    }

    fn is_as_before(&self) -> bool {
        self.table == self.blocks.table
    }
}
