//! LMDB: segments by the keys on their path, which LMDB keeps in hierarchic order. Its file is never synced to
//! the disk.

use crate::contenders::{LMDB, LMDB_COPIED};
use crate::sample::{serial, Sample, Segment, LENGTH, STEP, UNIT};
use crate::work::{Contender, Done, Operation};
use std::ffi::{c_char, c_int, c_uint, c_void, CString};
use std::hint::black_box;
use std::os::unix::ffi::OsStrExt;
use std::path::PathBuf;
use std::ptr::null_mut;
use std::sync::atomic::{AtomicUsize, Ordering};

#[repr(C)]
struct Value {
    size: usize,
    bytes: *mut c_void,
}

type Handle = *mut c_void;

extern "C" {
    fn mdb_env_create(env: *mut Handle) -> c_int;
    fn mdb_env_set_mapsize(env: Handle, size: usize) -> c_int;
    fn mdb_env_open(env: Handle, path: *const c_char, flags: c_uint, mode: c_uint) -> c_int;
    fn mdb_env_close(env: Handle);
    fn mdb_txn_begin(env: Handle, parent: Handle, flags: c_uint, txn: *mut Handle) -> c_int;
    fn mdb_txn_commit(txn: Handle) -> c_int;
    fn mdb_txn_abort(txn: Handle);
    fn mdb_dbi_open(txn: Handle, name: *const c_char, flags: c_uint, dbi: *mut c_uint) -> c_int;
    fn mdb_get(txn: Handle, dbi: c_uint, key: *mut Value, data: *mut Value) -> c_int;
    fn mdb_put(txn: Handle, dbi: c_uint, key: *mut Value, data: *mut Value, flags: c_uint)
        -> c_int;
    fn mdb_del(txn: Handle, dbi: c_uint, key: *mut Value, data: *mut Value) -> c_int;
    fn mdb_cursor_open(txn: Handle, dbi: c_uint, cursor: *mut Handle) -> c_int;
    fn mdb_cursor_close(cursor: Handle);
    fn mdb_cursor_get(cursor: Handle, key: *mut Value, data: *mut Value, op: c_uint) -> c_int;
}

const NOSUBDIR: c_uint = 0x4000;
const NOSYNC: c_uint = 0x10000;
const RDONLY: c_uint = 0x20000;
const WRITEMAP: c_uint = 0x80000;
const NOLOCK: c_uint = 0x400000;

const FIRST: c_uint = 0;
const NEXT: c_uint = 8;
const SET_RANGE: c_uint = 17;

impl Value {
    fn of(bytes: &[u8]) -> Value {
        Value {
            size: bytes.len(),
            bytes: bytes.as_ptr() as *mut c_void,
        }
    }

    fn none() -> Value {
        Value {
            size: 0,
            bytes: null_mut(),
        }
    }

    /// The bytes that LMDB has put here; they stay while the transaction lasts and nothing is written.
    fn bytes(&self) -> &[u8] {
        unsafe { std::slice::from_raw_parts(self.bytes as *const u8, self.size) }
    }
}

pub struct Lmdb<'s> {
    sample: &'s Sample,
    environment: Handle,
    dbi: c_uint,
    reading: Handle,
    cursor: Handle,
    /// Begun with the first insert, when all that reads is done.
    writing: Handle,
    file: PathBuf,
}

/// How many files there have been, so that each has a name of its own.
static FILES: AtomicUsize = AtomicUsize::new(0);

impl<'s> Lmdb<'s> {
    pub fn new(sample: &'s Sample) -> Lmdb<'s> {
        let turn = FILES.fetch_add(1, Ordering::Relaxed);
        let name = format!("umbristal-bench-{}-{turn}", std::process::id());
        let file = std::env::temp_dir().join(name);
        let mut lmdb = Lmdb {
            sample,
            environment: null_mut(),
            dbi: 0,
            reading: null_mut(),
            cursor: null_mut(),
            writing: null_mut(),
            file,
        };
        unsafe { lmdb.fill() };
        lmdb
    }

    unsafe fn fill(&mut self) {
        let path = CString::new(self.file.as_os_str().as_bytes()).expect("a path has no zero");
        done(mdb_env_create(&mut self.environment));
        done(mdb_env_set_mapsize(self.environment, 64 << 20));
        let flags = NOSUBDIR | NOSYNC | WRITEMAP | NOLOCK;
        done(mdb_env_open(self.environment, path.as_ptr(), flags, 0o600));
        let mut txn = null_mut();
        done(mdb_txn_begin(self.environment, null_mut(), 0, &mut txn));
        done(mdb_dbi_open(txn, std::ptr::null(), 0, &mut self.dbi));
        for segment in &self.sample.segments {
            put(txn, self.dbi, segment);
        }
        done(mdb_txn_commit(txn));
        done(mdb_txn_begin(
            self.environment,
            null_mut(),
            RDONLY,
            &mut self.reading,
        ));
        done(mdb_cursor_open(self.reading, self.dbi, &mut self.cursor));
    }

    /// Every segment, with what a taker reads off the data that LMDB points to.
    fn listing(&mut self, mut taken: impl FnMut(&[u8]) -> u64) -> Done {
        let mut work = Done { count: 0, sum: 0 };
        let (mut key, mut data) = (Value::none(), Value::none());
        let mut op = FIRST;
        while unsafe { mdb_cursor_get(self.cursor, &mut key, &mut data, op) } == 0 {
            work.count += 1;
            work.sum += taken(data.bytes());
            op = NEXT;
        }
        work
    }

    fn unique(&mut self, mut taken: impl FnMut(&[u8]) -> u64) -> Done {
        let mut sum = 0;
        for ([u1, u2], [s1, s2]) in &self.sample.probes {
            let path = [*u1, *u2, *s1, *s2];
            let (mut key, mut data) = (Value::of(&path), Value::none());
            done(unsafe { mdb_get(self.reading, self.dbi, &mut key, &mut data) });
            sum += taken(data.bytes());
        }
        Done {
            count: self.sample.probes.len(),
            sum,
        }
    }

    /// One pass of the cursor; what is beneath a unit in another state is passed over by its key's length alone.
    fn joined(&mut self) -> Done {
        let mut work = Done { count: 0, sum: 0 };
        let (mut key, mut data) = (Value::none(), Value::none());
        let (mut op, mut wanted) = (FIRST, false);
        while unsafe { mdb_cursor_get(self.cursor, &mut key, &mut data, op) } == 0 {
            op = NEXT;
            match key.size {
                2 => wanted = data.bytes()[2] == b'A',
                5 if wanted && data.bytes()[0] == b'P' => {
                    work.count += 1;
                    work.sum += serial(data.bytes());
                }
                _ => {}
            }
        }
        work
    }

    /// Units by range, and for each that is wanted its dependents.
    fn nested(&mut self) -> Done {
        let mut work = Done { count: 0, sum: 0 };
        let mut unit = [0, 0];
        loop {
            let (mut key, mut data) = (Value::of(&unit), Value::none());
            if unsafe { mdb_cursor_get(self.cursor, &mut key, &mut data, SET_RANGE) } != 0 {
                return work;
            }
            unit.copy_from_slice(&key.bytes()[..2]);
            if data.bytes()[2] == b'A' {
                self.dependents(unit, &mut work);
            }
            // The least key behind everything beneath this unit.
            unit[1] += 1;
        }
    }

    fn dependents(&mut self, unit: [u8; 2], work: &mut Done) {
        let (mut key, mut data) = (Value::none(), Value::none());
        while unsafe { mdb_cursor_get(self.cursor, &mut key, &mut data, NEXT) } == 0
            && key.bytes()[..2] == unit
        {
            if key.size == 5 && data.bytes()[0] == b'P' {
                work.count += 1;
                work.sum += serial(data.bytes());
            }
        }
    }

    fn insert_delete(&mut self) -> Done {
        let newcomer = self.sample.newcomer();
        unsafe {
            if self.writing.is_null() {
                done(mdb_txn_begin(
                    self.environment,
                    null_mut(),
                    0,
                    &mut self.writing,
                ));
            }
            put(self.writing, self.dbi, &newcomer);
            let (path, length) = path(&newcomer);
            let mut key = Value::of(&path[..length]);
            done(mdb_del(self.writing, self.dbi, &mut key, null_mut()));
        }
        Done {
            count: 1,
            sum: self.sample.newcomer_cell() as u64,
        }
    }
}

impl Contender<Operation> for Lmdb<'_> {
    fn name(&self) -> &'static str {
        LMDB
    }

    fn run(&mut self, operation: &Operation) -> Option<Done> {
        match operation {
            Operation::Listing => Some(self.listing(serial)),
            Operation::Nested => Some(self.nested()),
            Operation::Joined => Some(self.joined()),
            Operation::Unique => Some(self.unique(serial)),
            Operation::InsertGetDelete => Some(self.insert_delete()),
            Operation::Plain
            | Operation::InsertDelete
            | Operation::Checked
            | Operation::InTurns => None,
        }
    }
}

/// LMDB under a caller who copies what is found to an area of his own, as the store does: the rows in which it does.
pub struct Copied<'s> {
    lmdb: Lmdb<'s>,
    area: [u8; LENGTH],
}

impl<'s> Copied<'s> {
    pub fn new(sample: &'s Sample) -> Copied<'s> {
        Copied {
            lmdb: Lmdb::new(sample),
            area: [0; LENGTH],
        }
    }
}

impl Contender<Operation> for Copied<'_> {
    fn name(&self) -> &'static str {
        LMDB_COPIED
    }

    fn run(&mut self, operation: &Operation) -> Option<Done> {
        let area = &mut self.area;
        let copied = |data: &[u8]| {
            area[..data.len()].copy_from_slice(data);
            serial(black_box(&*area))
        };
        match operation {
            Operation::Listing => Some(self.lmdb.listing(copied)),
            Operation::Unique => Some(self.lmdb.unique(copied)),
            _ => None,
        }
    }
}

impl Drop for Lmdb<'_> {
    fn drop(&mut self) {
        unsafe {
            if !self.writing.is_null() {
                mdb_txn_abort(self.writing);
            }
            mdb_cursor_close(self.cursor);
            mdb_txn_abort(self.reading);
            mdb_env_close(self.environment);
        }
        // A file that stays in the temporary folder does no harm.
        let _ = std::fs::remove_file(&self.file);
    }
}

/// The key of a segment: unit, step and turn, as far down as it lies. A shorter key comes first.
fn path(segment: &Segment) -> ([u8; 5], usize) {
    let ([u1, u2], [s1, s2]) = (segment.unit, segment.step);
    let length = match segment.type_code {
        UNIT => 2,
        STEP => 4,
        _ => 5,
    };
    ([u1, u2, s1, s2, segment.turn], length)
}

unsafe fn put(txn: Handle, dbi: c_uint, segment: &Segment) {
    let (path, length) = path(segment);
    let (mut key, mut data) = (Value::of(&path[..length]), Value::of(&segment.data));
    done(mdb_put(txn, dbi, &mut key, &mut data, 0));
}

fn done(code: c_int) {
    assert_eq!(code, 0, "LMDB refuses");
}
