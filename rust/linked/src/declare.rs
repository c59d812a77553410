//! From a signature over slices to the symbol behind it, which takes each slice as a pointer and then its length, and
//! each array as a pointer alone.

/// A function for each line `pub fn name = symbol(parameters) -> result;`, safe or unsafe, over the symbol of the
/// archive. So a function of the C face is one line here, which `tests/declarations` holds against the header.
macro_rules! declare {
    () => {};
    ($(#[$note:meta])* pub fn $name:ident = $symbol:ident($($parameter:tt)*) -> $result:ty; $($more:tt)*) => {
        $(#[$note])*
        pub fn $name($($parameter)*) -> $result {
            handed_on!($symbol, $result, [] [] $($parameter)*,)
        }
        declare! { $($more)* }
    };
    ($(#[$note:meta])* pub unsafe fn $name:ident = $symbol:ident($($parameter:tt)*) -> $result:ty; $($more:tt)*) => {
        $(#[$note])*
        pub unsafe fn $name($($parameter)*) -> $result {
            handed_on!($symbol, $result, [] [] $($parameter)*,)
        }
        declare! { $($more)* }
    };
}

/// Takes the parameters one by one: what the symbol is declared with stands in the first brackets, what it is
/// called with in the second.
macro_rules! handed_on {
    ($symbol:ident, $result:ty, [$($declared:tt)*] [$($given:tt)*]) => {{
        extern "C" {
            fn $symbol($($declared)*) -> $result;
        }
        // SAFETY: each pointer comes from a slice that is borrowed for the whole call, with that slice's length; what
        // is written to is borrowed mutably, so nothing overlaps; the store keeps no pointer. What else an unsafe
        // function asks, its caller has promised.
        unsafe { $symbol($($given)*) }
    }};
    ($symbol:ident, $result:ty, [$($declared:tt)*] [$($given:tt)*] $slice:ident: &[u8], $($more:tt)*) => {
        handed_on!($symbol, $result, [$($declared)* _: *const u8, _: usize,]
            [$($given)* $slice.as_ptr(), $slice.len(),] $($more)*)
    };
    ($symbol:ident, $result:ty, [$($declared:tt)*] [$($given:tt)*] $slice:ident: &mut [u8], $($more:tt)*) => {
        handed_on!($symbol, $result, [$($declared)* _: *mut u8, _: usize,]
            [$($given)* $slice.as_mut_ptr(), $slice.len(),] $($more)*)
    };
    ($symbol:ident, $result:ty, [$($declared:tt)*] [$($given:tt)*] $array:ident: &[u8; $size:literal], $($more:tt)*) => {
        handed_on!($symbol, $result, [$($declared)* _: *const [u8; $size],] [$($given)* $array,] $($more)*)
    };
    ($symbol:ident, $result:ty, [$($declared:tt)*] [$($given:tt)*] $array:ident: &mut [u8; $size:literal], $($more:tt)*) => {
        handed_on!($symbol, $result, [$($declared)* _: *mut [u8; $size],] [$($given)* $array,] $($more)*)
    };
    ($symbol:ident, $result:ty, [$($declared:tt)*] [$($given:tt)*] $value:ident: $kind:ident, $($more:tt)*) => {
        handed_on!($symbol, $result, [$($declared)* _: $kind,] [$($given)* $value,] $($more)*)
    };
}
