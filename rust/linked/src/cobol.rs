//! The functions of the C face for languages that pass by reference alone: blocks of fixed sizes, their lengths in one of
//! them, the result in another.

declare! {
    /// [`table_check`](crate::table_check) on the fronts of blocks.
    pub fn cobol_check = umbristal_cobol_check(
        ask: &[u8; 21], cat: &[u8; 521], tab: &[u8; 495625], told: &mut [u8; 8]
    ) -> ();

    /// [`table_make`](crate::table_make) likewise.
    pub fn cobol_make = umbristal_cobol_make(
        ask: &[u8; 21], cat: &[u8; 521], tab: &mut [u8; 495625], told: &mut [u8; 8]
    ) -> ();

    /// [`call`](crate::call) likewise.
    pub fn cobol_call = umbristal_cobol_call(
        ask: &[u8; 21], cat: &[u8; 521], tab: &mut [u8; 495625], pos: &mut [u8; 8], list: &[u8; 1846],
        area: &mut [u8; 120], told: &mut [u8; 8]
    ) -> ();

    /// [`call_sound`](crate::call_sound) likewise.
    ///
    /// # Safety
    ///
    /// As [`Functions::call_sound`](face::Functions::call_sound) says, of the fronts.
    pub unsafe fn cobol_call_sound = umbristal_cobol_call_sound(
        ask: &[u8; 21], cat: &[u8; 521], tab: &mut [u8; 495625], pos: &mut [u8; 8], list: &[u8; 1846],
        area: &mut [u8; 120], told: &mut [u8; 8]
    ) -> ();

    /// [`report_nested`](crate::report_nested) likewise.
    pub fn cobol_report_nested = umbristal_cobol_report_nested(
        ask: &[u8; 21], cat: &[u8; 521], tab: &[u8; 495625], list1: &[u8; 1846], list2: &[u8; 1846],
        out: &mut [u8; 8192], told: &mut [u8; 8]
    ) -> ();

    /// [`report_joined`](crate::report_joined) likewise.
    pub fn cobol_report_joined = umbristal_cobol_report_joined(
        ask: &[u8; 21], cat: &[u8; 521], tab: &[u8; 495625], list1: &[u8; 1846], list2: &[u8; 1846],
        out: &mut [u8; 8192], told: &mut [u8; 8]
    ) -> ();

    /// [`report_plain`](crate::report_plain) likewise.
    pub fn cobol_report_plain = umbristal_cobol_report_plain(
        ask: &[u8; 21], cat: &[u8; 521], tab: &[u8; 495625], list1: &[u8; 1846], list2: &[u8; 1846],
        out: &mut [u8; 8192], told: &mut [u8; 8]
    ) -> ();
}
