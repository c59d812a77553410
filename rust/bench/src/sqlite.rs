//! SQLite, in memory, with statements that are prepared once, inside one transaction.

use crate::sample::{serial, Sample, Segment, STEP, UNIT};
use crate::work::{Contender, Done, Operation};
use std::ffi::{c_char, c_int, c_void, CString};
use std::ptr::{null, null_mut};

type Handle = *mut c_void;

extern "C" {
    fn sqlite3_open(name: *const c_char, db: *mut Handle) -> c_int;
    fn sqlite3_close(db: Handle) -> c_int;
    fn sqlite3_exec(
        db: Handle,
        sql: *const c_char,
        row: *const c_void,
        with: *mut c_void,
        message: *mut *mut c_char,
    ) -> c_int;
    fn sqlite3_prepare_v2(
        db: Handle,
        sql: *const c_char,
        length: c_int,
        statement: *mut Handle,
        rest: *mut *const c_char,
    ) -> c_int;
    fn sqlite3_finalize(statement: Handle) -> c_int;
    fn sqlite3_step(statement: Handle) -> c_int;
    fn sqlite3_reset(statement: Handle) -> c_int;
    fn sqlite3_bind_blob(
        statement: Handle,
        index: c_int,
        bytes: *const c_void,
        length: c_int,
        destructor: *const c_void,
    ) -> c_int;
    fn sqlite3_bind_int(statement: Handle, index: c_int, value: c_int) -> c_int;
    fn sqlite3_column_blob(statement: Handle, column: c_int) -> *const c_void;
    fn sqlite3_column_bytes(statement: Handle, column: c_int) -> c_int;
}

const ROW: c_int = 100;

/// A table for each type, by the keys on the path, and one of all segments in hierarchic order for the listing.
const SCHEMA: &str = "
    create table unit (unit blob primary key, state int, data blob) without rowid;
    create table step (unit blob, step blob, data blob, primary key (unit, step)) without rowid;
    create table try (unit blob, step blob, turn int, verdict int, data blob,
        primary key (unit, step, turn)) without rowid;
    create table segment (cell integer primary key, data blob);
    begin;";

/// Something prepared; closed before its database is.
struct Statement(Handle);

impl Statement {
    fn new(db: Handle, sql: &str) -> Statement {
        let sql = CString::new(sql).expect("no zero in a statement");
        let mut statement = null_mut();
        done(unsafe { sqlite3_prepare_v2(db, sql.as_ptr(), -1, &mut statement, null_mut()) });
        Statement(statement)
    }

    /// Binds bytes that stay where they are until the statement is reset.
    fn bind(&self, index: c_int, bytes: &[u8]) -> &Statement {
        let length = bytes.len() as c_int;
        done(unsafe { sqlite3_bind_blob(self.0, index, bytes.as_ptr().cast(), length, null()) });
        self
    }

    fn bind_number(&self, index: c_int, number: u8) -> &Statement {
        done(unsafe { sqlite3_bind_int(self.0, index, number.into()) });
        self
    }

    fn row(&self) -> bool {
        unsafe { sqlite3_step(self.0) == ROW }
    }

    /// The bytes of a column; they stay until the next step.
    fn column(&self, column: c_int) -> &[u8] {
        unsafe {
            let bytes = sqlite3_column_blob(self.0, column).cast();
            std::slice::from_raw_parts(bytes, sqlite3_column_bytes(self.0, column) as usize)
        }
    }

    fn reset(&self) {
        unsafe { sqlite3_reset(self.0) };
    }

    /// Every row, by its only column.
    fn add_rows(&self, work: &mut Done) {
        while self.row() {
            work.count += 1;
            work.sum += serial(self.column(0));
        }
        self.reset();
    }
}

impl Drop for Statement {
    fn drop(&mut self) {
        unsafe { sqlite3_finalize(self.0) };
    }
}

struct Statements {
    listing: Statement,
    unique: Statement,
    units: Statement,
    tries: Statement,
    joined: Statement,
    insert: Statement,
    delete: Statement,
}

impl Statements {
    fn new(db: Handle) -> Statements {
        let prepared = |sql| Statement::new(db, sql);
        Statements {
            listing: prepared("select data from segment order by cell"),
            unique: prepared("select data from step where unit = ? and step = ?"),
            units: prepared("select unit from unit where state = 65 order by unit"),
            tries: prepared(
                "select data from try where unit = ? and verdict = 80 order by step, turn",
            ),
            joined: prepared(
                "select try.data from unit cross join try on try.unit = unit.unit
                 where unit.state = 65 and try.verdict = 80",
            ),
            insert: prepared("insert into try values (?, ?, ?, ?, ?)"),
            delete: prepared("delete from try where unit = ? and step = ? and turn = ?"),
        }
    }
}

pub struct Sqlite<'s> {
    sample: &'s Sample,
    db: Handle,
    statements: Option<Statements>,
}

impl<'s> Sqlite<'s> {
    pub fn new(sample: &'s Sample) -> Sqlite<'s> {
        let mut db = null_mut();
        let schema = CString::new(SCHEMA).expect("no zero in the schema");
        unsafe {
            done(sqlite3_open(c":memory:".as_ptr(), &mut db));
            done(sqlite3_exec(
                db,
                schema.as_ptr(),
                null(),
                null_mut(),
                null_mut(),
            ));
        }
        fill(db, sample);
        Sqlite {
            sample,
            db,
            statements: Some(Statements::new(db)),
        }
    }

    fn unique(&self, by: &Statements) -> Done {
        let mut work = Done { count: 0, sum: 0 };
        for (unit, step) in &self.sample.probes {
            by.unique.bind(1, unit).bind(2, step).add_rows(&mut work);
        }
        work
    }

    fn nested(&self, by: &Statements) -> Done {
        let mut work = Done { count: 0, sum: 0 };
        while by.units.row() {
            by.tries.bind(1, by.units.column(0)).add_rows(&mut work);
        }
        by.units.reset();
        work
    }

    fn insert_delete(&self, by: &Statements) -> Done {
        let newcomer = self.sample.newcomer();
        put_try(&by.insert, &newcomer);
        let delete = &by.delete;
        delete.bind(1, &newcomer.unit).bind(2, &newcomer.step);
        delete.bind_number(3, newcomer.turn).row();
        delete.reset();
        Done {
            count: 1,
            sum: self.sample.newcomer_cell() as u64,
        }
    }
}

impl Contender<Operation> for Sqlite<'_> {
    fn name(&self) -> &'static str {
        "SQLite"
    }

    fn run(&mut self, operation: &Operation) -> Option<Done> {
        let by = self.statements.as_ref()?;
        let mut work = Done { count: 0, sum: 0 };
        match operation {
            Operation::Listing => by.listing.add_rows(&mut work),
            Operation::Joined => by.joined.add_rows(&mut work),
            Operation::Nested => work = self.nested(by),
            Operation::Unique => work = self.unique(by),
            Operation::InsertGetDelete => work = self.insert_delete(by),
            Operation::Plain
            | Operation::InsertDelete
            | Operation::Checked
            | Operation::InTurns => return None,
        }
        Some(work)
    }
}

impl Drop for Sqlite<'_> {
    fn drop(&mut self) {
        self.statements = None;
        unsafe { sqlite3_close(self.db) };
    }
}

fn fill(db: Handle, sample: &Sample) {
    let unit = Statement::new(db, "insert into unit values (?, ?, ?)");
    let step = Statement::new(db, "insert into step values (?, ?, ?)");
    let attempt = Statement::new(db, "insert into try values (?, ?, ?, ?, ?)");
    let all = Statement::new(db, "insert into segment (data) values (?)");
    for segment in &sample.segments {
        match segment.type_code {
            UNIT => {
                unit.bind(1, &segment.unit).bind_number(2, segment.data[2]);
                unit.bind(3, &segment.data).row();
                unit.reset();
            }
            STEP => {
                step.bind(1, &segment.unit).bind(2, &segment.step);
                step.bind(3, &segment.data).row();
                step.reset();
            }
            _ => put_try(&attempt, segment),
        }
        all.bind(1, &segment.data).row();
        all.reset();
    }
}

fn put_try(statement: &Statement, segment: &Segment) {
    statement.bind(1, &segment.unit).bind(2, &segment.step);
    statement
        .bind_number(3, segment.turn)
        .bind_number(4, segment.data[0]);
    statement.bind(5, &segment.data).row();
    statement.reset();
}

fn done(code: c_int) {
    assert_eq!(code, 0, "SQLite refuses");
}
