//! One archive as it was linked into a shared object, called through pointers. One layout at a time has its turn.

use crate::calls::Measured;
use face::Functions;
use std::ffi::{c_char, c_int, c_void, CStr, CString};
use std::mem::transmute;
use std::sync::atomic::{AtomicPtr, Ordering::Relaxed};

extern "C" {
    fn dlopen(path: *const c_char, how: c_int) -> *mut c_void;
    fn dlsym(object: *mut c_void, name: *const c_char) -> *mut c_void;
}

/// Every symbol is resolved when the object is opened.
const NOW: c_int = 2;

type Check = unsafe extern "C" fn(*const u8, usize, *const u8, usize) -> u8;
type Report = unsafe extern "C" fn(
    *const u8,
    usize,
    *const u8,
    usize,
    *const u8,
    usize,
    *const u8,
    usize,
    *mut u8,
    usize,
) -> u64;
type Call = unsafe extern "C" fn(
    *const u8,
    usize,
    *mut u8,
    usize,
    *mut u8,
    usize,
    u8,
    *const u8,
    usize,
    *mut u8,
    usize,
) -> u64;

/// What is measured of a layout, and which side it is of.
pub struct Layout {
    pub side: &'static str,
    table_check: Check,
    call: Call,
    call_sound: Call,
    nested: Report,
    joined: Report,
    plain: Report,
}

static TURN: AtomicPtr<Layout> = AtomicPtr::new(std::ptr::null_mut());

impl Layout {
    /// Opens a shared object for as long as the program runs.
    pub fn load(side: &'static str, path: &str) -> &'static Layout {
        let name = CString::new(path).expect("a path");
        // SAFETY: the object is made of the store alone, which has nothing that runs when it is opened.
        let object = unsafe { dlopen(name.as_ptr(), NOW) };
        assert!(!object.is_null(), "{path} cannot be opened");
        // SAFETY: each symbol has the signature of its type; tests/declarations holds the same ones against the header.
        let layout = unsafe {
            Layout {
                side,
                table_check: transmute::<*mut c_void, Check>(found(
                    object,
                    c"umbristal_table_check",
                )),
                call: transmute::<*mut c_void, Call>(found(object, c"umbristal_call")),
                call_sound: transmute::<*mut c_void, Call>(found(object, c"umbristal_call_sound")),
                nested: transmute::<*mut c_void, Report>(found(object, c"umbristal_report_nested")),
                joined: transmute::<*mut c_void, Report>(found(object, c"umbristal_report_joined")),
                plain: transmute::<*mut c_void, Report>(found(object, c"umbristal_report_plain")),
            }
        };
        Box::leak(Box::new(layout))
    }

    /// From now on it is measured.
    pub fn take_turn(&'static self) {
        TURN.store(std::ptr::from_ref(self).cast_mut(), Relaxed);
    }

    pub fn refuses(&'static self, cat: &[u8], tab: &[u8]) -> bool {
        self.take_turn();
        table_check(cat, tab) != 0
    }
}

fn found(object: *mut c_void, name: &CStr) -> *mut c_void {
    // SAFETY: the object is open and stays so.
    let symbol = unsafe { dlsym(object, name.as_ptr()) };
    assert!(!symbol.is_null(), "{name:?} is not in it");
    symbol
}

/// The layout whose turn it is.
fn own() -> &'static Layout {
    // SAFETY: a turn is taken before anything is measured, by a layout that is never freed.
    unsafe { &*TURN.load(Relaxed) }
}

fn table_check(cat: &[u8], tab: &[u8]) -> u8 {
    // SAFETY: as `linked` has it: each pointer is a slice's, with its length.
    unsafe { (own().table_check)(cat.as_ptr(), cat.len(), tab.as_ptr(), tab.len()) }
}

/// A call by that function.
unsafe fn called(
    by: Call,
    cat: &[u8],
    tab: &mut [u8],
    pos: &mut [u8],
    number: u8,
    list: &[u8],
    area: &mut [u8],
) -> u64 {
    by(
        cat.as_ptr(),
        cat.len(),
        tab.as_mut_ptr(),
        tab.len(),
        pos.as_mut_ptr(),
        pos.len(),
        number,
        list.as_ptr(),
        list.len(),
        area.as_mut_ptr(),
        area.len(),
    )
}

/// A report by that function.
fn reported(by: Report, cat: &[u8], tab: &[u8], one: &[u8], two: &[u8], out: &mut [u8]) -> u64 {
    // SAFETY: as for the check.
    unsafe {
        by(
            cat.as_ptr(),
            cat.len(),
            tab.as_ptr(),
            tab.len(),
            one.as_ptr(),
            one.len(),
            two.as_ptr(),
            two.len(),
            out.as_mut_ptr(),
            out.len(),
        )
    }
}

/// Whichever layout has its turn.
pub struct Turn;

impl Measured for Turn {
    const FUNCTIONS: Functions = Functions {
        name: "the layout whose turn it is",
        table_check,
        // SAFETY: as for the check; the checked call asks nothing.
        call: |c, t, p, n, l, a| unsafe { called(own().call, c, t, p, n, l, a) },
        call_sound: |c, t, p, n, l, a| unsafe { called(own().call_sound, c, t, p, n, l, a) },
        report_nested: |c, t, one, two, out| reported(own().nested, c, t, one, two, out),
        report_joined: |c, t, one, two, out| reported(own().joined, c, t, one, two, out),
        report_plain: |c, t, one, two, out| reported(own().plain, c, t, one, two, out),
        ..linked::STORE
    };
}
