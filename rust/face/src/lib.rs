//! The C face as a table of functions over slices, and the numbers that it speaks in.
//!
//! Nothing is linked here. `linked` fills the table with the proved store, `compare` with the judge, `faults` with
//! faulty copies of the judge, `bench` with Rust written by hand; whoever compares or measures takes the table.

/// A constant for each name, and `ALL` with every name and its number, in that order.
macro_rules! numbered {
    ($($name:ident = $number:literal),* $(,)?) => {
        $(pub const $name: u8 = $number;)*

        /// Every name with its number.
        pub const ALL: &[(&str, u8)] = &[$((stringify!($name), $name)),*];
    };
}

/// The calls, by number.
pub mod number {
    numbered! {
        GU = 1, GN = 2, GNP = 3, GHU = 4, GHN = 5, GHNP = 6, ISRT = 7, REPL = 8, DLET = 9,
    }
}

/// The statuses, by number. Below 10 the call was done; 10 makes the position fresh, 11 and 12 clear the hold, and
/// none of the three changes anything else; 20 and above change nothing.
pub mod status {
    numbered! {
        BLANK = 0, GA = 1, GK = 2,
        GB = 10, GE = 11, GP = 12,
        CX = 20, TX = 21, PX = 22, AD = 23, AC = 24, AJ = 25, AK = 26, AH = 27, AB = 28, DJ = 29, DA = 30, II = 31,
        FX = 32, PD = 33,
    }
}

/// The length of a position block.
pub const POSITION_SIZE: usize = 8;

/// The position block of a fresh position.
pub const FRESH: [u8; POSITION_SIZE] = [0; POSITION_SIZE];

/// Catalogue, table, position, number, list and area; status, type, level and length in the four low bytes of the
/// result, removed above them.
pub type Call = fn(&[u8], &mut [u8], &mut [u8], u8, &[u8], &mut [u8]) -> u64;

/// The same with a promise of its caller.
pub type SoundCall = unsafe fn(&[u8], &mut [u8], &mut [u8], u8, &[u8], &mut [u8]) -> u64;

/// Catalogue, table, list 1, list 2 and out; the status in the low half of the result, how many hits in the high
/// half. Each hit is its cell number at the front of the out, two bytes, high first.
pub type Report = fn(&[u8], &[u8], &[u8], &[u8], &mut [u8]) -> u64;

/// The functions of a store, each over any bytes but for `call_sound`.
#[derive(Clone, Copy)]
pub struct Functions {
    /// Whose they are.
    pub name: &'static str,
    /// Of a catalogue: 0, or CX.
    pub catalogue_check: fn(&[u8]) -> u8,
    /// Of a catalogue and a table: CX, TX or 0.
    pub table_check: fn(&[u8], &[u8]) -> u8,
    /// An empty table over the whole slice and 0; or CX or TX, and nothing written.
    pub table_make: fn(&[u8], &mut [u8]) -> u8,
    /// One call, on any blocks.
    pub call: Call,
    /// The same without testing catalogue, table and position again.
    ///
    /// # Safety
    ///
    /// `table_check` has answered 0 for the two blocks, and the position is fresh or `call` has not answered PX for
    /// it on them; since then only calls with this position have changed the table, and only calls the position.
    pub call_sound: SoundCall,
    /// Get-next with list 1, and for each segment got get-next-within-parent with list 2.
    pub report_nested: Report,
    /// Get-next with both lists as one.
    pub report_joined: Report,
    /// Every cell tested against both lists as one.
    pub report_plain: Report,
}

/// The table of a module that has a function of each name: `functions!("store", some::module)`.
#[macro_export]
macro_rules! functions {
    ($name:expr, $($module:ident)::+) => {
        $crate::Functions {
            name: $name,
            catalogue_check: $($module)::+::catalogue_check,
            table_check: $($module)::+::table_check,
            table_make: $($module)::+::table_make,
            call: $($module)::+::call,
            call_sound: $($module)::+::call_sound,
            report_nested: $($module)::+::report_nested,
            report_joined: $($module)::+::report_joined,
            report_plain: $($module)::+::report_plain,
        }
    };
}

/// The reader and the writer of DBD statements, over any bytes.
#[derive(Clone, Copy)]
pub struct Statements {
    /// Whose they are.
    pub name: &'static str,
    /// A text, and where catalogue and names go. In the low byte of the result the fault and in the high half its line; or 0,
    /// and in the next two bytes how many types and fields there are.
    pub dbd_read: fn(&[u8], &mut [u8], &mut [u8]) -> u64,
    /// A catalogue and its names, and where the text goes. In the low byte of the result the status, in the high half the
    /// text's length.
    pub dbd_write: fn(&[u8], &[u8], &mut [u8]) -> u64,
}

/// The same table of a module that has both: `statements!("store", some::module)`.
#[macro_export]
macro_rules! statements {
    ($name:expr, $($module:ident)::+) => {
        $crate::Statements {
            name: $name,
            dbd_read: $($module)::+::dbd_read,
            dbd_write: $($module)::+::dbd_write,
        }
    };
}
